int table[256];
int main(void) { }
