#include "pcc.h"

/* The dot product of two vectors. */
int main(void) {
    int a[100];
    int b[100];
    int i;
    int sum = 0;

    for (i = 0; i < 100; i++) {
        a[i] = i;
        b[i] = i + 1;
    }
    for (i = 0; i < 100; i++)
        sum += a[i] * b[i];
    print(sum);
    return 0;
}
