void g(void) {
 f(); }