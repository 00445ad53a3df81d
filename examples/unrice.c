// Takes apart the slots of rice.c: each gives back a block.

const int BLOCK = 256;
const int SLOT = 259;
const int RAW = 255;

// The difference that was folded to a number.
int unfolded(int number) {
    return number & 1 ? -(number + 1) / 2 : number / 2;
}

int main(void) {
    int i;
    for (i = 0; i + SLOT <= osin_len; i += SLOT) {
        int slot[SLOT], a[BLOCK];
        #pragma omp task input(osin >> slot[SLOT]) output(osout << a[BLOCK])
        {
            int k, r = slot[2], ones, held = 0, at = 3, last = 0;
            unsigned buffer;
            if (r == RAW) {
                for (k = 0; k < BLOCK; k++) a[k] = slot[3 + k];
            } else {
                for (k = 0; k < BLOCK; k++) {
                    // The whole of the next code: more than 24 bits, or all that are left.
                    while (held <= 24 && at < SLOT) {
                        buffer = buffer << 8 | slot[at];
                        held += 8;
                        at++;
                    }
                    ones = 0;
                    while (buffer >> held - 1 & 1) {
                        ones++;
                        held--;
                    }
                    held -= 1 + r;
                    last = last + unfolded((ones << r) + (buffer >> held & (1u << r) - 1)) & 255;
                    a[k] = last;
                }
            }
        }
    }
    return 0;
}
