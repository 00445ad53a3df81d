enum { RED, GREEN };
int main(void) { }
