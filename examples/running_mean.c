#include "pcc.h"

/* The mean of the numbers read so far, until the input ends: then the program is trapped, with status 12. */
int main(void) {
    int sum = 0;
    int count = 0;

    while (1) {
        sum += read();
        count++;
        print(sum / count);
    }
}
