// The Adler-32 of the input, that of zlib, as four bytes, the highest first.
//
// Its two numbers are a sum of the bytes and a sum of these sums, modulo 65,521. What a block adds to them doesn't hang on the bytes
// before it: one task a block sums up its bytes, all side by side, and a second one joins two numbers with two others, which is all
// that waits.

const int BLOCK = 4096;
const unsigned MODULUS = 65521;

int main(void) {
    unsigned parts __attribute__((stream)), sums __attribute__((stream));
    unsigned part[2], before[2], after[2];
    int i, sum[4];
    #pragma omp task output(sums << after[2])
    after[0] = 1;
    for (i = 0; i < osin_len; i += BLOCK) {
        int n = osin_len - i < BLOCK ? osin_len - i : BLOCK;
        int a[n];
        // The sum of the bytes, and that of each byte as often as it is summed up within the block: below 2^32 for so short a block.
        #pragma omp task input(osin >> a[n]) output(parts << part[2])
        {
            int k;
            for (k = 0; k < n; k++) {
                part[0] += a[k];
                part[1] += part[0];
            }
            part[0] %= MODULUS;
            part[1] %= MODULUS;
        }
        #pragma omp task input(parts >> part[2], sums >> before[2]) output(sums << after[2])
        {
            after[0] = (before[0] + part[0]) % MODULUS;
            after[1] = (before[1] + n * before[0] + part[1]) % MODULUS;
        }
    }
    #pragma omp task input(sums >> before[2]) output(osout << sum[4])
    {
        sum[0] = before[1] >> 8;
        sum[1] = before[1] & 255;
        sum[2] = before[0] >> 8;
        sum[3] = before[0] & 255;
    }
    return 0;
}
