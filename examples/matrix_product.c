#include "pcc.h"

/* The product of two matrices of eight rows and columns; prints its trace and its last row. */
int main(void) {
    int a[64];
    int b[64];
    int c[64];
    int row;
    int column;
    int k;
    int trace = 0;

    for (row = 0; row < 8; row++)
        for (column = 0; column < 8; column++) {
            a[8 * row + column] = row + 2 * column;
            b[8 * row + column] = row - column;
        }
    for (row = 0; row < 8; row++)
        for (column = 0; column < 8; column++) {
            int sum = 0;
            for (k = 0; k < 8; k++)
                sum += a[8 * row + k] * b[8 * k + column];
            c[8 * row + column] = sum;
        }
    for (row = 0; row < 8; row++)
        trace += c[9 * row];
    print(trace);
    for (column = 0; column < 8; column++)
        print(c[56 + column]);
    return 0;
}
