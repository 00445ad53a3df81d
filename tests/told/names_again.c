const int BELOW = -1;
const int ALSO_BELOW = 4294967295u;
const unsigned ABOVE = -1;
int twice(int t) {
    { int t[2]; t[0] = 1; }
    return t[0];
}
int sum(int n) {
    int a[BELOW], b[ALSO_BELOW], c[ABOVE], t[2];
    return twice(t) + n(1) + t;
}
int main(void) {
    int t, w[2];
    #pragma omp task input(osin >> t, osin >> w[2])
    {
        t = w + t[0] + sum;
    }
}
