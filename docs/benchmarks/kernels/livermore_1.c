#include "pcc.h"

/* The first of the Livermore loops, a fragment of hydrodynamics, in whole numbers. */
int main(void) {
    int x[1035];
    int y[1035];
    int z[1035];
    int turns = read();
    int q = 3;
    int r = 5;
    int t = 7;
    int k;

    for (k = 0; k < turns; k++)
        x[k] = q + y[k] * (r * z[k + 10] + t * z[k + 11]);
    print(turns);
    return 0;
}
