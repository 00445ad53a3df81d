int main(void) {
    int p;
    p = *p;
}
