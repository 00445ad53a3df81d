int main(void) {
    int const a = 3;
}
