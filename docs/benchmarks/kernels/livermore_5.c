#include "pcc.h"

/* The fifth of the Livermore loops, the elimination below the diagonal of a band of three, in whole numbers. */
int main(void) {
    int x[1024];
    int y[1024];
    int z[1024];
    int turns = read();
    int i;

    for (i = 1; i < turns; i++)
        x[i] = z[i] * (y[i] - x[i - 1]);
    print(turns);
    return 0;
}
