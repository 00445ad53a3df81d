int scaled(int value) {
    #pragma omp task
    ;
    return value * gain;
}

int main(void) {
    int w[4];
    int s[0] __attribute__((stream));
    {
        int a, a, t[n] __attribute__((stream));
        w = scaled(1, 2) + osin[0];
        osin_len[0] = a;
    }
    #pragma omp task input(osout >> w[4], osout >> w[4])
    {
        #pragma omp taskwait
        return late;
    }
    break;
}
