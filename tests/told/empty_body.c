int f(int n) {
    int k;
    if (n > (3));
        n = 3;
    for (k = 0; k < (n); k++);
    while (n > 100) ;
    while (n > 10) { }
    for (k = 0; k < 2; k++)
        ;
    if (n > 4
        && n < 6);
    for (;;) {
        if (n)
            return n;
        else
            ;
    }
}
int main(void) {
    int x;
    x = f(1);
    if (f(x))
    {
    }
}
