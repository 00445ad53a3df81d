const int LEVELS = 3;

int clipped(int value, int most) {
    int spare;
    return value > most ? most : value;
}

int main(void) {
    int i, a, b;
    for (i = 0; i < osin_len; i++) {
        #pragma omp task input(osin >> a) output(osout << b)
        b = clipped(a, 255);
    }
}
