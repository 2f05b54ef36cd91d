#include "pcc.h"

/* A first-order recurrence. */
int main(void) {
    int x[1024];
    int turns = read();
    int state = 1;
    int i;

    for (i = 0; i < turns; i++)
        state = state * 5 + x[i];
    print(state);
    return 0;
}
