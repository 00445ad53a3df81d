int f(int *p) { return 0; }
int main(void) { }
