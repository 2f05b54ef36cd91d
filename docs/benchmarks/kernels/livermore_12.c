#include "pcc.h"

/* The twelfth of the Livermore loops, a first difference, in whole numbers. */
int main(void) {
    int x[1024];
    int y[1025];
    int turns = read();
    int k;

    for (k = 0; k < turns; k++)
        x[k] = y[k + 1] - y[k];
    print(turns);
    return 0;
}
