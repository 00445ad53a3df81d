// The hash FNV-1a of 64 bits, as eight bytes, the highest first: `hash = (hash ^ byte) * (2^40 + 435)` for each byte. The hash is two words.
const int BLOCK = 4096;
unsigned high_word(unsigned a, unsigned b) {
    unsigned low = (a & 0xffff) * b, high = (a >> 16) * b;
    return (high + (low >> 16)) >> 16;
}
int main(void) {
    unsigned hashes __attribute__((stream));
    unsigned from[2], to[2];
    int i, out[8];
    #pragma omp task output(hashes << to[2])
    { to[0] = 0x84222325; to[1] = 0xcbf29ce4; }
    for (i = 0; i < osin_len; i += BLOCK) {
        int n = osin_len - i < BLOCK ? osin_len - i : BLOCK;
        int a[n];
        #pragma omp task input(osin >> a[n], hashes >> from[2]) output(hashes << to[2])
        {
            int k;
            unsigned low = from[0], high = from[1];
            for (k = 0; k < n; k++) {
                low ^= a[k];
                high = high * 435 + high_word(low, 435) + (low << 8);
                low *= 435;
            }
            to[0] = low;
            to[1] = high;
        }
    }
    #pragma omp task input(hashes >> from[2]) output(osout << out[8])
    {
        int k;
        for (k = 0; k < 4; k++) {
            out[k] = from[1] >> 24 - 8 * k & 255;
            out[4 + k] = from[0] >> 24 - 8 * k & 255;
        }
    }
    return 0;
}
