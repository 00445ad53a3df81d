int main(void) {
    char c;
}
