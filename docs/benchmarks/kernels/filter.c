#include "pcc.h"

/* A filter of four taps. */
int main(void) {
    int x[1024];
    int y[1024];
    int turns = read();
    int i;

    for (i = 3; i < turns; i++)
        y[i] = x[i] + 3 * x[i - 1] + 3 * x[i - 2] + x[i - 3];
    print(turns);
    return 0;
}
