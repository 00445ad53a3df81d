int main(void) {
    osin_len = 1;
}
