// A bit packer: bytes that differ little from those before them take few bits each, by Rice's code.
//
// A difference is folded to a number from 0 to 255, small for small differences of either sign. Its code is as many ones as the number
// has whole multiples of 2^r, a zero, and its last r bits. Each block takes the r that makes it shortest.
// As in squeeze.c a block gets a slot: two bytes of length, the lowest first, then r and the bits, or 255 and the bytes as they are.
// `ospack pack 259` packs the slots; unrice.c takes them apart. What is behind the last whole block is left out.

const int BLOCK = 256;
const int SLOT = 259;
const int RAW = 255;
const int MOST_ONES = 16;

// A difference modulo 256 as a number that is small where it is near 0.
int folded(int difference) {
    difference &= 255;
    return difference < 128 ? 2 * difference : 2 * (256 - difference) - 1;
}

int main(void) {
    int i;
    for (i = 0; i + BLOCK <= osin_len; i += BLOCK) {
        int a[BLOCK], slot[SLOT];
        #pragma omp task input(osin >> a[BLOCK]) output(osout << slot[SLOT])
        {
            int k, r, best = RAW, bits = 8 * BLOCK, number, ones, last, held = 0, at = 3, length = 1 + BLOCK;
            unsigned buffer;
            for (r = 0; r < 7; r++) {
                int sum = 0;
                last = 0;
                for (k = 0; k < BLOCK; k++) {
                    ones = folded(a[k] - last) >> r;
                    sum += ones <= MOST_ONES ? ones + 1 + r : 8 * BLOCK;
                    last = a[k];
                }
                if (sum < bits) {
                    bits = sum;
                    best = r;
                }
            }
            slot[2] = best;
            if (best == RAW) {
                for (k = 0; k < BLOCK; k++) slot[3 + k] = a[k];
            } else {
                last = 0;
                for (k = 0; k < BLOCK; k++) {
                    number = folded(a[k] - last);
                    last = a[k];
                    ones = number >> best;
                    // At most seven bits wait for their byte, and a code has 23 at most.
                    buffer = buffer << ones + 1 | (1u << ones + 1) - 2;
                    buffer = buffer << best | number & (1 << best) - 1;
                    held += ones + 1 + best;
                    while (held >= 8) {
                        held -= 8;
                        slot[at] = buffer >> held & 255;
                        at++;
                    }
                }
                if (held > 0) {
                    slot[at] = buffer << 8 - held & 255;
                    at++;
                }
                length = at - 2;
            }
            slot[0] = length & 255;
            slot[1] = length >> 8;
        }
    }
    return 0;
}
