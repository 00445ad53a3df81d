int main(void) {
    int s[9] __attribute__((stream)), a, b, c, d, e, f, g, h, i;
    #pragma omp task output(s[0] << a, s[1] << b, s[2] << c, s[3] << d, s[4] << e, s[5] << f, s[6] << g, s[7] << h, s[8] << i)
    ;
}
