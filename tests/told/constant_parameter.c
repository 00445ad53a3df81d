int f(const int a) {
    return a;
}
