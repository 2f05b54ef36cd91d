#include "pcc.h"

/* The sums of the first numbers of the input, which begins with their count. */
int main(void) {
    int sums[1000];
    int count = read();
    int i;

    if (count > 1000)
        count = 1000;
    for (i = 0; i < count; i++)
        sums[i] = read();
    for (i = 1; i < count; i++)
        sums[i] += sums[i - 1];
    for (i = 0; i < count; i++)
        print(sums[i]);
    return 0;
}
