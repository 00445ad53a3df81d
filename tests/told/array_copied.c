int f(void) {
    int a[4], b[4];
    b = a;
    return 0;
}
int main(void) {
}
