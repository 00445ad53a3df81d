// White noise over bytes: what a dither, a test signal or a scrambler is made of. The first four bytes of the input are a seed, the
// lowest first; of each byte behind them the output has the byte plus noise, modulo 256. unnoise.c takes the noise away again.
//
// Each block makes its noise of the seed and its own number alone, so the blocks don't wait for one another: only the seed is read by
// all of them, with a burst of 0.

const int BLOCK = 256;

// A number that looks unlike those of its neighbours: shifts and products modulo 2^32 (the finalizer of MurmurHash3).
unsigned mixed(unsigned x) {
    x = (x ^ x >> 16) * 0x85ebca6b;
    x = (x ^ x >> 13) * 0xc2b2ae35;
    return x ^ x >> 16;
}

// The number of four bytes, the lowest first.
unsigned number(unsigned a, unsigned b, unsigned c, unsigned d) {
    return a | b << 8 | c << 16 | d << 24;
}

// The number behind another one: a xorshift, which goes through all but 0.
unsigned next(unsigned x) {
    x ^= x << 13;
    x ^= x >> 17;
    return x ^ x << 5;
}

int main(void) {
    unsigned seeds __attribute__((stream));
    unsigned seed;
    int i, block = 0, head[4];
    if (osin_len < 4) return 0;
    #pragma omp task input(osin >> head[4]) output(seeds << seed)
    seed = number(head[0], head[1], head[2], head[3]);
    for (i = 4; i < osin_len; i += BLOCK) {
        int n = osin_len - i < BLOCK ? osin_len - i : BLOCK;
        int a[n], b[n];
        unsigned of_all[1];
        block++;
        #pragma omp task input(osin >> a[n], seeds >> of_all[0]) output(osout << b[n])
        {
            int k;
            unsigned x = mixed(of_all[0] + mixed(block)) | 1;
            for (k = 0; k < n; k++) {
                x = next(x);
                b[k] = a[k] + (x >> 24) & 255;
            }
        }
    }
    return 0;
}
