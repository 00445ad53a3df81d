// A coder that never starts: it codes each byte by its difference to what a decoder will have made of the byte before.
//
// Its two tasks wait for one another, since nobody writes the first element of `last`. docs/GUIDE.md shows how one sees that.

int main(void) {
    int last __attribute__((stream)), code __attribute__((stream));
    int i, x, before, step, rebuilt, pair[2];
    for (i = 0; i < osin_len; i++) {
        #pragma omp task input(osin >> x, last >> before) output(code << pair[2], osout << step)
        {
            pair[0] = before;
            pair[1] = (x - before) / 4;
            step = pair[1] & 255;
        }
        #pragma omp task input(code >> pair[2]) output(last << rebuilt)
        rebuilt = pair[0] + 4 * pair[1];
    }
    return 0;
}
