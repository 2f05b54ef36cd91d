#include "pcc.h"

/* Three conditions behind a load. */
int main(void) {
    int x[1024];
    int turns = read();
    int sum = 0;
    int high = 0;
    int low = 0;
    int i;

    for (i = 0; i < turns; i++) {
        int value = x[i];
        if (value > 0)
            sum += value;
        if (value > high)
            high = value;
        if (value < low)
            low = value;
    }
    print(sum);
    print(high);
    print(low);
    return 0;
}
