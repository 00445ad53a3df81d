int main(void) {
    int a;
    a = sizeof(int);
}
