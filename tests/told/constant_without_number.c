const int N;
