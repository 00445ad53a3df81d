int main(void) {
    int s[2] __attribute__((stream));
    int x;
    #pragma omp task input(s >> x)
        x = 1;
}
