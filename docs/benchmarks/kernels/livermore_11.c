#include "pcc.h"

/* The eleventh of the Livermore loops, a first sum, in whole numbers. */
int main(void) {
    int x[1024];
    int y[1024];
    int turns = read();
    int k;

    for (k = 1; k < turns; k++)
        x[k] = x[k - 1] + y[k];
    print(turns);
    return 0;
}
