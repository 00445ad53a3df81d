int main(void) {
    int w[4], y;
    #pragma omp task firstprivate(w) output(osout << y)
        y = 1;
}
