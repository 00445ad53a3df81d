int main(void) {
    printf("hello");
}
