int main(void) {
    FILE *f;
}
