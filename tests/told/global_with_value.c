int count = 0;
int main(void) { }
