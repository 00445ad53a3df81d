// 100 divided by each byte of the input: a byte 0 traps, and the output ends before it.

int main(void) {
    int i;
    for (i = 0; i < osin_len; i++) {
        int x, y;
        #pragma omp task input(osin >> x) output(osout << y)
        y = 100 / x;
    }
    return 0;
}
