int main(void) {
	int x;	x	= gain;
}
