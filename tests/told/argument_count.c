int main(void) {
    int x = argc;
}
