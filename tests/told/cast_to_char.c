int main(void) {
    int a;
    a = (char)a;
}
