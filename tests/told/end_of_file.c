int main(void) {
    int x = EOF;
}
