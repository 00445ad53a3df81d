// The inverse of squeeze.c, over the slots that `ospack unpack 4099` makes of what was packed.

const int WIDTH = 512;
const int ROWS = 8;
const int STRIP = 4096;
const int SLOT = 4099;

int main(void) {
    int i;
    for (i = 0; i + SLOT <= osin_len; i += SLOT) {
        int slot[SLOT], a[STRIP];
        #pragma omp task input(osin >> slot[SLOT]) output(osout << a[STRIP])
        {
            int b[STRIP], order[STRIP], mean[2];
            int k, step, axis, along, n, line, left, right, m, run, number, low, at;
            // The numbers, from the widest step to the least.
            m = 1;
            for (step = WIDTH / 2; step > 0; step /= 2) {
                for (line = 0; line < ROWS; line += step) {
                    for (k = line % (2 * step) == 0 ? step : 0; k < WIDTH; k += line % (2 * step) == 0 ? 2 * step : step) {
                        order[m] = line * WIDTH + k;
                        m++;
                    }
                }
            }
            mean[0] = 64;
            mean[1] = 16;
            at = 0;
            run = 0;
            m = slot[2] == 1 ? STRIP : 0;
            while (m < STRIP) {
                for (low = 0; 24 << low < mean[run]; low++) ;
                for (number = 0; slot[3 + (at >> 3)] >> (at & 7) & 1; at++) number++;
                at++;
                number = number << low;
                for (k = 0; k < low; k++) {
                    number |= (slot[3 + (at >> 3)] >> (at & 7) & 1) << k;
                    at++;
                }
                mean[run] += number - mean[run] / 16;
                if (run) {
                    m += number;
                    run = 0;
                } else {
                    b[order[m]] = number & 1 ? -(number + 1) / 2 : number / 2;
                    m++;
                    run = number == 0 && mean[0] < 16;
                }
            }
            // The steps of the wavelet, from the last to the first, each taken back.
            for (step = WIDTH / 2; step > 0; step /= 2) {
                for (axis = 1; axis >= 0; axis--) {
                    along = axis == 0 ? 1 : WIDTH;
                    n = axis == 0 ? WIDTH : STRIP;
                    for (line = 0; line < STRIP / (n / along); line += step) {
                        m = axis == 0 ? line * WIDTH : line;
                        for (k = 0; k + step * along < n; k += 2 * step * along) {
                            right = b[m + k + step * along];
                            left = k > 0 ? b[m + k - step * along] : right;
                            b[m + k] -= (left + right + 2) >> 2;
                        }
                        for (k = step * along; k < n; k += 2 * step * along) {
                            left = b[m + k - step * along];
                            right = k + step * along < n ? b[m + k + step * along] : left;
                            b[m + k] += (left + right) >> 1;
                        }
                    }
                }
            }
            for (k = 0; k < STRIP; k++) a[k] = slot[2] == 1 ? slot[3 + k] : b[k];
        }
    }
    return 0;
}
