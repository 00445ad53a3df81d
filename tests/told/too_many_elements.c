int f(int n) {
    int a[65536], b[4];
    return 0;
}
int main(void) {
}
