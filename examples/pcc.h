/* Gives print and read to any C compiler, so that a source of pcc is also a program of C:
 *
 *     gcc -fwrapv -o example example.c
 *
 * pcc itself skips lines that include something. A read past the end of the input ends the program with
 * status 12, as pvm does; a division by zero and an index out of bounds are left to the compiler. */
#include <stdio.h>
#include <stdlib.h>

static void print(int value) { printf("%d\n", value); }

static int read_number(void) {
    int value;
    if (scanf("%d", &value) != 1) {
        fflush(stdout);
        exit(12);
    }
    return value;
}

#define read() read_number()
