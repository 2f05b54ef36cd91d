#include "pcc.h"

/* The greatest common divisor of two numbers. */
int main(void) {
    int a = read();
    int b = read();

    while (b != 0) {
        int rest = a % b;
        a = b;
        b = rest;
    }
    print(a);
    return 0;
}
