int main(void) {
    int a[4], b[4];
    #pragma omp task input(osin >> a[4]) output(osout << b[4])
    { b[0] = a[3]; b[1] = a[2]; b[2] = a[1]; b[3] = a[0]; }
}
