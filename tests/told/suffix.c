int main(void) {
    int x = 10L;
}
