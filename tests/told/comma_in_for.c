int main(void) {
    int i, j;
    for (i = 0, j = 0; i < 3; i++)
        ;
}
