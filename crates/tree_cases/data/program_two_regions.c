void one(void) { long *p = malloc(24); p[0] = 1; free(p); }
void two(void) { long *p = malloc(64); p[0] = 2; free(p); }