#include "pcc.h"

/* The dot product of two vectors. */
int main(void) {
    int x[1024];
    int y[1024];
    int turns = read();
    int sum = 0;
    int i;

    for (i = 0; i < turns; i++)
        sum += x[i] * y[i];
    print(sum);
    return 0;
}
