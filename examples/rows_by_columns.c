#include "pcc.h"

/* The product of two matrices of four rows and columns, an element at a time by a function of numbers. */

int dot(int a, int b, int c, int d, int e, int f, int g, int h) {
    return a * e + b * f + c * g + d * h;
}

int main(void) {
    int left[16];
    int right[16];
    int product[16];
    int row;
    int column;

    for (row = 0; row < 16; row++) {
        left[row] = row - 5;
        right[row] = 3 * row % 7;
    }
    for (row = 0; row < 16; row += 4)
        for (column = 0; column < 4; column++) {
            int element = dot(left[row], left[row + 1], left[row + 2], left[row + 3], right[column], right[column + 4], right[column + 8], right[column + 12]);
            product[row + column] = element;
        }
    for (row = 0; row < 16; row++)
        print(product[row]);
    return 0;
}
