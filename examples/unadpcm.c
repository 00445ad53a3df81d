// The inverse of adpcm.c: it follows the codes with the same guess and step, and gives the guesses.

// The guess behind a code: its lowest three bits are a size, the fourth one a sign.
int guess_after(int guess, int step, int code) {
    int change = (2 * (code & 7) + 1) * step / 8;
    guess += code & 8 ? -change : change;
    return guess < 0 ? 0 : guess > 255 ? 255 : guess;
}

// The step behind a code.
int step_after(int step, int code) {
    int size = code & 7;
    step = step * (size < 4 ? 58 : size == 4 ? 77 : size == 5 ? 93 : size == 6 ? 112 : 137) / 64;
    return step < 4 ? 4 : step > 127 ? 127 : step;
}

int main(void) {
    int state __attribute__((stream));
    int i, first[2];
    #pragma omp task output(state << first[2])
    { first[0] = 128; first[1] = 16; }
    for (i = 0; i < osin_len; i += 32) {
        int n = osin_len - i < 32 ? osin_len - i : 32;
        int byte[n], before[2], sample[2 * n], after[2];
        #pragma omp task input(osin >> byte[n], state >> before[2]) output(osout << sample[2 * n], state << after[2])
        {
            int k, code, guess = before[0], step = before[1];
            for (k = 0; k < 2 * n; k++) {
                code = k % 2 ? byte[k / 2] & 15 : byte[k / 2] >> 4;
                guess = guess_after(guess, step, code);
                step = step_after(step, code);
                sample[k] = guess;
            }
            after[0] = guess;
            after[1] = step;
        }
    }
    return 0;
}
