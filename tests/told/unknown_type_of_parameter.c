int f(uint8_t a) {
    return a;
}
