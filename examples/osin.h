extern const int osin_len;
