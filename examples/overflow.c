/* Both tests for an overflow rely on what is not defined: a compiler may take one for false and one for true. */
int wraps(unsigned char x) {
    int y = 2147483647 - x;
    if (y + 100 < y) return 1;
    return 0;
}
int grows(unsigned char x) {
    int y = 2147483647 - x;
    return y + 1 > y;
}
int wide(int x) { return x; }
float none;
int unknown(void) { return z; }
