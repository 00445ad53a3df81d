// The CRC-32 of the input, that of gzip, PNG and `cksum -a crc32b`, as four bytes, the highest first.
//
// A block takes the sum of the bytes before it from the stream `sums`, and passes on that of its own bytes with them. So the blocks
// wait for one another: a sum is a chain. adler.c shows one that needn't be.

const int BLOCK = 4096;
const unsigned POLYNOMIAL = 0xedb88320;

int main(void) {
    unsigned sums __attribute__((stream));
    unsigned before, after;
    int i, sum[4];
    #pragma omp task output(sums << after)
    after = 0xffffffff;
    for (i = 0; i < osin_len; i += BLOCK) {
        int n = osin_len - i < BLOCK ? osin_len - i : BLOCK;
        int a[n];
        #pragma omp task input(osin >> a[n], sums >> before) output(sums << after)
        {
            int k, bit;
            after = before;
            for (k = 0; k < n; k++) {
                after ^= a[k];
                for (bit = 0; bit < 8; bit++) after = after & 1 ? after >> 1 ^ POLYNOMIAL : after >> 1;
            }
        }
    }
    #pragma omp task input(sums >> before) output(osout << sum[4])
    {
        int k;
        for (k = 0; k < 4; k++) sum[k] = ~before >> 24 - 8 * k & 255;
    }
    return 0;
}
