#include "pcc.h"

/* A first-order recurrence: each number of a pseudo-random sequence comes from the one before. */
int main(void) {
    int state = 12345;
    int i;
    int low = 2147483647;
    int high = -2147483647 - 1;

    for (i = 0; i < 1000; i++) {
        state = state * 1103515245 + 12345;
        low = state < low ? state : low;
        high = state > high ? state : high;
    }
    print(state);
    print(low);
    print(high);
    return 0;
}
