int main(void) {
    int a;
    a = (unsigned)a;
}
