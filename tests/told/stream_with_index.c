int main(void) {
    int s __attribute__((stream));
    int x;
    #pragma omp task input(s[0] >> x)
        x = 1;
}
