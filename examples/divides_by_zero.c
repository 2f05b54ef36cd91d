#include "pcc.h"

/* Is trapped in line 10 once the divisor is 0, with status 10; what was printed before stays printed. */
int main(void) {
    int divisor = 3;

    while (1) {
        print(divisor);
        divisor--;
        print(12 / divisor);
    }
}
