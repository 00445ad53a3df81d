int f(int a) {
    return a;
}
int g(void) {
    int a[4];
    return f(a);
}
int main(void) {
}
