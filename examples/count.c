void f(void) {
    int i = 1;
    while (i <= 3) {
        printf("%d\n", i);
        i = i + 1;
    }
}
