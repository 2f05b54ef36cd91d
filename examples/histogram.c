#include "pcc.h"

/* How often each last digit stands among the numbers of the input, which begins with their count. */
int main(void) {
    int counts[10];
    int left = read();
    int i;

    for (i = 0; i < 10; i++)
        counts[i] = 0;
    while (left > 0) {
        int digit = read() % 10;
        counts[digit < 0 ? -digit : digit]++;
        left--;
    }
    for (i = 0; i < 10; i++)
        print(counts[i]);
    return 0;
}
