#ifdef N
#endif
int main(void) { }
