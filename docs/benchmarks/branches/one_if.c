#include "pcc.h"

/* One condition behind a load. */
int main(void) {
    int x[1024];
    int turns = read();
    int sum = 0;
    int i;

    for (i = 0; i < turns; i++) {
        int value = x[i];
        if (value > 0)
            sum += value;
    }
    print(sum);
    return 0;
}
