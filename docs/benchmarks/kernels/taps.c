#include "pcc.h"

/* A filter of sixteen taps. */
int main(void) {
    int c[16];
    int x[1040];
    int y[1024];
    int turns = read();
    int t;
    int c0 = c[0]; int c1 = c[1]; int c2 = c[2]; int c3 = c[3];
    int c4 = c[4]; int c5 = c[5]; int c6 = c[6]; int c7 = c[7];
    int c8 = c[8]; int c9 = c[9]; int c10 = c[10]; int c11 = c[11];
    int c12 = c[12]; int c13 = c[13]; int c14 = c[14]; int c15 = c[15];

    for (t = 0; t < turns; t++)
        y[t] = c0 * x[t] + c1 * x[t + 1] + c2 * x[t + 2] + c3 * x[t + 3]
               + c4 * x[t + 4] + c5 * x[t + 5] + c6 * x[t + 6] + c7 * x[t + 7]
               + c8 * x[t + 8] + c9 * x[t + 9] + c10 * x[t + 10] + c11 * x[t + 11]
               + c12 * x[t + 12] + c13 * x[t + 13] + c14 * x[t + 14] + c15 * x[t + 15];
    print(turns);
    return 0;
}
