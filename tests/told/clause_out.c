int main(void) {
    int x, y;
    #pragma omp task input(osin >> x) out(osout << y)
    {
    }
}
