#if
@