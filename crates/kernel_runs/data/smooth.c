int main(void) {
    int i;
    for (i = 0; i + 2 < osin_len; i++) {
        int w[3], y;
        #pragma omp task input(osin >> w[1]) output(osout << y)
        y = (w[0] + w[1] + w[2]) / 3;
    }
    return 0;
}
