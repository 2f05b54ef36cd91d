#include "pcc.h"

/* The squares modulo 101: the largest of a table of them, and their sum. */
int main(void) {
    int table[100];
    int i;
    int square;
    int largest = 0;
    int sum = 0;

    for (i = 0; i < 100; i++) {
        square = i * i % 101;
        table[i] = square;
        if (table[i] > largest)
            largest = table[i];
        sum = sum + table[i];
    }
    print(largest);
    print(sum);
    return 0;
}
