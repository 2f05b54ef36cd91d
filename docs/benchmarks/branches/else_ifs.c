#include "pcc.h"

/* How many numbers of each of nine classes there are, by a chain of conditions. */
int main(void) {
    int x[1024];
    int turns = read();
    int count_0 = 0;
    int count_1 = 0;
    int count_2 = 0;
    int count_3 = 0;
    int count_4 = 0;
    int count_5 = 0;
    int count_6 = 0;
    int count_7 = 0;
    int count_8 = 0;
    int i;

    for (i = 0; i < turns; i++) {
        int value = x[i];
        if (value < 10)
            count_0++;
        else if (value < 20)
            count_1++;
        else if (value < 30)
            count_2++;
        else if (value < 40)
            count_3++;
        else if (value < 50)
            count_4++;
        else if (value < 60)
            count_5++;
        else if (value < 70)
            count_6++;
        else if (value < 80)
            count_7++;
        else
            count_8++;
    }
    print(count_0);
    print(count_1);
    print(count_2);
    print(count_3);
    print(count_4);
    print(count_5);
    print(count_6);
    print(count_7);
    print(count_8);
    return 0;
}
