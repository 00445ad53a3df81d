#include <stdio.h>
const int B = 4;
int main(void) {
    int i;
    for (i = 0; i < osin_len; i += B) {
        int n = osin_len - i < B ? osin_len - i : B;
        int a[n], b[n];
        #pragma omp task input(osin >> a[n]) output(osout << b[n])
        {
            int k;
            for (k = 0; k < n; k++) b[k] = 255 - a[k];
        }
    }
    return 0;
}
