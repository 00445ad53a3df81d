// The inverse of bank.c. The bands are parted, the even bytes come back from the low band and the differences on both
// sides, and then the odd bytes from the even ones on both sides.
//
// The last kind of activation needs the first even byte of the next block, which an activation gives that is created
// after it: an activation waits for its elements, whoever writes them.

// A byte as a difference, from -128 to 127.
int wrap(int d) {
    return ((d + 128) & 255) - 128;
}

int main(void) {
    int low __attribute__((stream)), high __attribute__((stream));
    int even __attribute__((stream)), odd __attribute__((stream));
    int i, pairs = osin_len / 2, x, y;
    #pragma omp task output(high << y)
    y = 0;
    for (i = 0; i < pairs; i += 16) {
        int n = pairs - i < 16 ? pairs - i : 16;
        // The even bytes of the block, and the next one if a pair follows.
        int m = i + n < pairs ? n + 1 : n;
        int a[2 * n], l[n], d[n], around[n + 1], e[n], both[m], b[2 * n];
        #pragma omp task input(osin >> a[2 * n]) output(low << l[n], high << d[n])
        {
            int k;
            for (k = 0; k < n; k++) {
                l[k] = a[k];
                d[k] = wrap(a[n + k]);
            }
        }
        #pragma omp task input(low >> l[n], high >> around[n]) output(even << e[n], odd << d[n])
        {
            int k;
            for (k = 0; k < n; k++) {
                e[k] = (l[k] - ((around[k] + around[k + 1] + 2) >> 2)) & 255;
                d[k] = around[k + 1];
            }
        }
        #pragma omp task input(even >> both[n], odd >> d[n]) output(osout << b[2 * n])
        {
            int k, right;
            for (k = 0; k < n; k++) {
                right = k + 1 < m ? both[k + 1] : both[k];
                b[2 * k] = both[k];
                b[2 * k + 1] = (d[k] + ((both[k] + right) >> 1)) & 255;
            }
        }
    }
    if (osin_len % 2 == 1) {
        #pragma omp task input(osin >> x) output(osout << y)
        y = x;
    }
    return 0;
}
