#include "share.h"

/* What each of so many parts gets of a whole. The test for no parts comes too late. */
int share(unsigned char whole, unsigned char parts) {
    int each = whole / parts;
    if (parts == 0) return 0;
    return each;
}
