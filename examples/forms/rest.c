// Blocks of eight bytes, each in reverse order, and behind them the rest as it is.
const int B = 8;
int main(void) {
    int i, rest = osin_len % B;
    for (i = 0; i + B <= osin_len; i += B) {
        int a[B], b[B];
        #pragma omp task input(osin >> a[B]) output(osout << b[B])
        {
            int k;
            for (k = 0; k < B; k++) b[k] = a[B - 1 - k];
        }
    }
    if (rest > 0) {
        int a[rest], b[rest];
        #pragma omp task input(osin >> a[rest]) output(osout << b[rest])
        {
            int k;
            for (k = 0; k < rest; k++) b[k] = a[k];
        }
    }
    return 0;
}
