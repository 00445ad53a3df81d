int main(void) {
    int a = 1e3;
}
