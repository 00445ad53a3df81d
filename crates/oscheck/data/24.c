int main(void) {
    int w[2];
    w[0] = 1;
}
