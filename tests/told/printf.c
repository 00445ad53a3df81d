int main(void) {
    int x = 1;
    printf(x);
}
