#include "pcc.h"

/* Is trapped in line 9 by the fifth index, with status 11. */
int main(void) {
    int squares[4];
    int i;

    for (i = 0; i < 5; i++) {
        squares[i] = i * i;
        print(squares[i]);
    }
    return 0;
}
