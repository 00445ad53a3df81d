const int table[3] = {1, 2, 3};
int main(void) { }
