#include "../pcc.h"

/* The dot product of two vectors of eight elements. */
int main(void) {
    static int a[8] = {1, 2, 3, 4, 5, 6, 7, 8};
    static int b[8] = {8, 7, 6, 5, 4, 3, 2, 1};
    int i;
    int sum = 0;

    for (i = 0; i < 8; i++)
        sum += a[i] * b[i];
    print(sum);
    return 0;
}
