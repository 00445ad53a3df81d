// The inverse of dct.c: each byte is the sum of the waves of its block, each as large as its coefficient says.

// The step of the quantiser.
const int Q = 4;

int main(void) {
    int i;
    for (i = 0; i < osin_len; i += 64) {
        int n = osin_len - i < 64 ? osin_len - i : 64;
        int a[n], b[n];
        #pragma omp task input(osin >> a[n]) output(osout << b[n])
        {
            // 2048 times the cosine of each sixteenth of a half turn, from 0 to 31.
            int cosine[32], m, block, k, j;
            cosine[0] = 2048; cosine[1] = 2009; cosine[2] = 1892; cosine[3] = 1703; cosine[4] = 1448;
            cosine[5] = 1138; cosine[6] = 784; cosine[7] = 400; cosine[8] = 0;
            for (m = 9; m <= 16; m++) cosine[m] = -cosine[16 - m];
            for (m = 17; m < 32; m++) cosine[m] = cosine[32 - m];
            for (block = 0; block + 8 <= n; block += 8) {
                for (j = 0; j < 8; j++) {
                    // The first wave counts with the root of a half.
                    int sum = (a[block] - 128) * Q * 1448, byte;
                    for (k = 1; k < 8; k++) sum += (a[block + k] - 128) * Q * cosine[((2 * j + 1) * k) & 31];
                    byte = ((sum + 2048) >> 12) + 128;
                    if (byte < 0) byte = 0;
                    if (byte > 255) byte = 255;
                    b[block + j] = byte;
                }
            }
            for (k = n / 8 * 8; k < n; k++) b[k] = a[k];
        }
    }
    return 0;
}
