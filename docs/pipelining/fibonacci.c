#include "pcc.h"

/* The Fibonacci numbers: each is the sum of the two before it. */
int main(void) {
    int turns = read();
    int one = 0;
    int other = 1;
    int next;
    int i;

    for (i = 0; i < turns; i++) {
        next = one + other;
        one = other;
        other = next;
    }
    print(one);
    return 0;
}
