int main(void) {
    int a;
    a = (int)a;
}
