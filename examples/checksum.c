#include "pcc.h"

/* The cyclic redundancy check of the bytes of the input, which begins with their count: 16 bits by the polynomial
   x^16 + x^12 + x^5 + 1, from all ones, half a byte at a time. */
int main(void) {
    static int remainders[16] = {
        0x0000, 0x1021, 0x2042, 0x3063, 0x4084, 0x50a5, 0x60c6, 0x70e7,
        0x8108, 0x9129, 0xa14a, 0xb16b, 0xc18c, 0xd1ad, 0xe1ce, 0xf1ef,
    };
    int check = 0xffff;
    int left = read();

    while (left > 0) {
        int byte = read();
        check = (check << 4 & 0xffff) ^ remainders[check >> 12 ^ byte >> 4 & 15];
        check = (check << 4 & 0xffff) ^ remainders[check >> 12 ^ byte & 15];
        left--;
    }
    print(check);
    return 0;
}
