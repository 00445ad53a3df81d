int main(void) {
    int i, j = 0;
    for (i = 0; i < 3; i++, j++)
        ;
}
