int main(void) {
    int i, j;
    i = 1, j = 2;
}
