#include "pcc.h"

/* The sums of all beginnings of a vector. */
int main(void) {
    int x[1024];
    int y[1024];
    int turns = read();
    int sum = 0;
    int i;

    for (i = 0; i < turns; i++) {
        sum += x[i];
        y[i] = sum;
    }
    print(sum);
    return 0;
}
