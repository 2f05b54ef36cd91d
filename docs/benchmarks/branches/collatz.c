#include "pcc.h"

/* How many steps a number takes to 1: halved where it is even, else three times it and one more. */
int main(void) {
    int number = read();
    int steps = 0;

    while (number != 1) {
        if (number % 2 == 0)
            number = number / 2;
        else
            number = 3 * number + 1;
        steps++;
    }
    print(steps);
    return 0;
}
