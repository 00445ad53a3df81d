int main(void) {
    int x;
    x = osin;
}
