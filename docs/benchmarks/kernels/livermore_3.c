#include "pcc.h"

/* The third of the Livermore loops, an inner product, in whole numbers. */
int main(void) {
    int x[1024];
    int z[1024];
    int turns = read();
    int q = 0;
    int k;

    for (k = 0; k < turns; k++)
        q = q + z[k] * x[k];
    print(q);
    return 0;
}
