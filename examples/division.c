int f(unsigned char x) {
    int y = 10 / x;
    if (x == 0) return 1;
    return y;
}
