
'ab' @