int main(void) {
    again:
    ;
}
