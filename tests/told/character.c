int main(void) {
    int c = 'A';
}
