// A block transform with a quantiser: the cosine transform of eight bytes (DCT-II), in whole numbers, as in JPEG.
//
// Each activation takes up to eight blocks of eight bytes. It writes eight bytes for each block: the coefficients, from
// the mean of the block to its fastest wave, each divided by Q, rounded, and moved by 128. Small coefficients become
// 128, which is what a packer behind this step lives on. What doesn't fill a block is copied.
// undct.c gives back each byte with an error of at most 6.

// The step of the quantiser. From 3 on every coefficient fits a byte.
const int Q = 4;

int main(void) {
    int i;
    for (i = 0; i < osin_len; i += 64) {
        int n = osin_len - i < 64 ? osin_len - i : 64;
        int a[n], b[n];
        #pragma omp task input(osin >> a[n]) output(osout << b[n])
        {
            // 2048 times the cosine of each sixteenth of a half turn, from 0 to 31.
            int cosine[32], m, block, k, j;
            cosine[0] = 2048; cosine[1] = 2009; cosine[2] = 1892; cosine[3] = 1703; cosine[4] = 1448;
            cosine[5] = 1138; cosine[6] = 784; cosine[7] = 400; cosine[8] = 0;
            for (m = 9; m <= 16; m++) cosine[m] = -cosine[16 - m];
            for (m = 17; m < 32; m++) cosine[m] = cosine[32 - m];
            for (block = 0; block + 8 <= n; block += 8) {
                for (k = 0; k < 8; k++) {
                    int sum = 0;
                    for (j = 0; j < 8; j++) sum += (a[block + j] - 128) * cosine[((2 * j + 1) * k) & 31];
                    // The first wave has half the energy of the others: it is divided by the root of 2.
                    if (k == 0) sum = sum * 181 / 256;
                    sum += sum < 0 ? -2048 * Q : 2048 * Q;
                    b[block + k] = sum / (4096 * Q) + 128;
                }
            }
            for (k = n / 8 * 8; k < n; k++) b[k] = a[k];
        }
    }
    return 0;
}
