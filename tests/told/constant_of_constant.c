const int M = 2;
const int N = M;
