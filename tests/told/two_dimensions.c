int main(void) {
    int t[4][4];
}
