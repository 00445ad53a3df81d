// An adaptive delta coder: four bits for each sample of eight bits. Two samples make a byte, the first one its high half.
//
// The coder keeps a guess of the next sample and a step. A code says by how many quarters of the step the sample
// differs from the guess: small codes shrink the step, large ones let it grow, so that it follows the signal. Guess and
// step go from window to window through a stream of the program's own, `state`: each activation reads the two elements
// that the one before it wrote, and so waits for it.
// unadpcm.c gives back an even number of samples: those of a sine with 64 samples a period each within 4. What jumps, as
// noise does, is followed late.

// The guess behind a code: its lowest three bits are a size, the fourth one a sign.
int guess_after(int guess, int step, int code) {
    int change = (2 * (code & 7) + 1) * step / 8;
    guess += code & 8 ? -change : change;
    return guess < 0 ? 0 : guess > 255 ? 255 : guess;
}

// The step behind a code.
int step_after(int step, int code) {
    int size = code & 7;
    step = step * (size < 4 ? 58 : size == 4 ? 77 : size == 5 ? 93 : size == 6 ? 112 : 137) / 64;
    return step < 4 ? 4 : step > 127 ? 127 : step;
}

// The code for a difference.
int code_of(int difference, int step) {
    int size = (difference < 0 ? -difference : difference) * 4 / step;
    return (size > 7 ? 7 : size) + (difference < 0 ? 8 : 0);
}

int main(void) {
    int state __attribute__((stream));
    int i, first[2];
    #pragma omp task output(state << first[2])
    { first[0] = 128; first[1] = 16; }
    for (i = 0; i < osin_len; i += 64) {
        int n = osin_len - i < 64 ? osin_len - i : 64;
        int m = (n + 1) / 2;
        int sample[n], before[2], byte[m], after[2];
        #pragma omp task input(osin >> sample[n], state >> before[2]) output(osout << byte[m], state << after[2])
        {
            int k, code, guess = before[0], step = before[1];
            for (k = 0; k < n; k++) {
                code = code_of(sample[k] - guess, step);
                byte[k / 2] |= k % 2 ? code : code << 4;
                guess = guess_after(guess, step, code);
                step = step_after(step, code);
            }
            after[0] = guess;
            after[1] = step;
        }
    }
    return 0;
}
