int f(int a) {
    return a ? a * f(a - 1) : 1;
}
int main(void) {
}
