uint32_t rotate(int a) {
    return a;
}
