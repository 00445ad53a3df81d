int main(void) {
    for (size_t i = 0; i < 4; i++)
        ;
}
