int main(void) {
    int a = 08;
}
