#include "pcc.h"

/* The dot product of two vectors, over the places where the first is positive. */
int main(void) {
    int x[1024];
    int y[1024];
    int turns = read();
    int sum = 0;
    int i;

    for (i = 0; i < turns; i++)
        if (x[i] > 0)
            sum += x[i] * y[i];
    print(sum);
    return 0;
}
