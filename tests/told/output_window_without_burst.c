int main(void) {
    int w[4];
    #pragma omp task output(osout << w)
        w[0] = 1;
}
