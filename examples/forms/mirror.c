int main(void) {
    int i;
    for (i = 0; i + WIDTH <= osin_len; i += WIDTH) {
        int row[WIDTH], turned[WIDTH];
        #pragma omp task input(osin >> row[WIDTH]) output(osout << turned[WIDTH])
        {
            int k;
            for (k = 0; k < WIDTH; k++) turned[k] = row[WIDTH - 1 - k];
        }
    }
    return 0;
}
