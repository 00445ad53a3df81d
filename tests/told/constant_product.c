const int N = 2 * 8;
