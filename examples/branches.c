void collatz(void) {
    int n = 27;
    int steps = 0;
    while (1 < n) {
        int half = 0;
        while (2 * (half + 1) <= n)
            half = half + 1;
        if (n - 2 * half == 0)
            n = half;
        else
            n = 3 * n + 1;
        steps = steps + 1;
    }
    printf("%d\n", steps);
}

void sign(void) {
    int n = 0 - 1;
    while (n <= 1) {
        if (n < 0)
            printf("%d\n", 0 - 1);
        else if (n == 0)
            printf("%d\n", 0);
        else
            printf("%d\n", 1);
        n = n + 1;
    }
}
