/* The test stands before the division, so nothing is unstable. */
int guarded(unsigned char x) {
    if (x == 0) return 1;
    if (10 / x == 2) return 2;
    return 0;
}
