int f(int i) {
    int t[16];
    return t[i, 1];
}
