const int A = 1, B = 2;
