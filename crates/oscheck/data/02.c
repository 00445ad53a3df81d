int main(void) {
    return 1;
} /* the end
