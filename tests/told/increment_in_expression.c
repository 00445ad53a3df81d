int f(int n) {
    int a[3], k = 0;
    a[k++] = n;
    return k;
}
int main(void) { }
