int g(int a) {
    return f(a);
}
int f(int a) {
    return a;
}
int main(void) {
}
