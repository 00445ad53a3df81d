// A coder of pictures that writes less where its input allows it, and loses nothing: the 5/3 wavelet over strips of eight rows,
// its differences as numbers of a few bits, and of zeros in a row how many there are.
//
// The length of the output stream depends on that of the input alone. So each strip gets a slot of a fixed size: two bytes of
// length, the lowest first, then as many, and what stands behind them is to be ignored. `ospack pack 4099` takes the lengths and
// these bytes alone, and `ospack unpack 4099` makes slots of them again, for unsqueeze.c. What is behind the last whole strip is
// left out.

const int WIDTH = 512;
const int ROWS = 8;
const int STRIP = 4096;
const int SLOT = 4099;
const int BITS = 32768;

int main(void) {
    int i;
    for (i = 0; i + STRIP <= osin_len; i += STRIP) {
        int a[STRIP], slot[SLOT];
        #pragma omp task input(osin >> a[STRIP]) output(osout << slot[SLOT])
        {
            int b[STRIP], order[STRIP], mean[2];
            int k, step, axis, along, n, line, left, right, m, run, number, low, ones, at, length;
            for (k = 0; k < STRIP; k++) b[k] = a[k];
            // Each step in both directions: what a number differs by from the mean of its neighbours; then the others, smoothed
            // by these.
            for (step = 1; step < WIDTH; step *= 2) {
                for (axis = 0; axis < 2; axis++) {
                    along = axis == 0 ? 1 : WIDTH;
                    n = axis == 0 ? WIDTH : STRIP;
                    for (line = 0; line < STRIP / (n / along); line += step) {
                        m = axis == 0 ? line * WIDTH : line;
                        for (k = step * along; k < n; k += 2 * step * along) {
                            left = b[m + k - step * along];
                            right = k + step * along < n ? b[m + k + step * along] : left;
                            b[m + k] -= (left + right) >> 1;
                        }
                        for (k = 0; k + step * along < n; k += 2 * step * along) {
                            right = b[m + k + step * along];
                            left = k > 0 ? b[m + k - step * along] : right;
                            b[m + k] += (left + right + 2) >> 2;
                        }
                    }
                }
            }
            // The numbers, from the widest step to the least: first the mean of all.
            m = 1;
            for (step = WIDTH / 2; step > 0; step /= 2) {
                for (line = 0; line < ROWS; line += step) {
                    for (k = line % (2 * step) == 0 ? step : 0; k < WIDTH; k += line % (2 * step) == 0 ? 2 * step : step) {
                        order[m] = line * WIDTH + k;
                        m++;
                    }
                }
            }
            // Each number as n >> low ones, a zero and its low bits, where low goes by the mean of those before it: mean[0]
            // of the differences, mean[1] of the zeros in a row, each in sixteenths. Behind a zero it is told how many follow,
            // as far as mean[1], where the differences are below one in the mean.
            mean[0] = 64;
            mean[1] = 16;
            at = 0;
            run = 0;
            m = 0;
            while (m < STRIP) {
                number = 0;
                if (run) {
                    while (m < STRIP && number < mean[1] && b[order[m]] == 0) {
                        number++;
                        m++;
                    }
                } else {
                    number = b[order[m]];
                    number = number < 0 ? -2 * number - 1 : 2 * number;
                    m++;
                }
                for (low = 0; 24 << low < mean[run]; low++) ;
                for (ones = number >> low; ones >= 0; ones--) {
                    if (at < BITS && ones > 0) slot[3 + (at >> 3)] |= 1 << (at & 7);
                    at++;
                }
                for (k = 0; k < low; k++) {
                    if (at < BITS) slot[3 + (at >> 3)] |= (number >> k & 1) << (at & 7);
                    at++;
                }
                mean[run] += number - mean[run] / 16;
                run = !run && number == 0 && mean[0] < 16;
            }
            // Where that is no shorter, the bytes as they are.
            length = 1 + (at + 7) / 8;
            if (at > BITS) {
                length = 1 + STRIP;
                slot[2] = 1;
                for (k = 0; k < STRIP; k++) slot[3 + k] = a[k];
            }
            slot[0] = length & 255;
            slot[1] = length >> 8;
        }
    }
    return 0;
}
