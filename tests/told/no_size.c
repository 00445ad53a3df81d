int f(int n) {
    int a[] = {1, 2};
    return 0;
}
