const uint8_t N = 3;
