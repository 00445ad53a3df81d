int f(int n) {
    int a[n];
    return 0;
}
int main(void) {
}
