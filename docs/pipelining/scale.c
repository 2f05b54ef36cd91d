#include "pcc.h"

/* Each element of one vector, scaled, into another. */
int main(void) {
    int x[1024];
    int y[1024];
    int turns = read();
    int i;

    for (i = 0; i < turns; i++)
        y[i] = x[i] * 3;
    return 0;
}
