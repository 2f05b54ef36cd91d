#include "pcc.h"

/* A filter with four taps over a signal with an impulse, a step and a ramp. */
int main(void) {
    int signal[48];
    int taps[4];
    int i;
    int k;

    for (i = 0; i < 48; i++)
        signal[i] = i < 16 ? (i == 4) * 100 : i < 32 ? 10 : i - 31;
    taps[0] = 1;
    taps[1] = 3;
    taps[2] = 3;
    taps[3] = 1;
    for (i = 3; i < 48; i++) {
        int sum = 0;
        for (k = 0; k < 4; k++)
            sum += taps[k] * signal[i - k];
        print(sum >> 3);
    }
    return 0;
}
