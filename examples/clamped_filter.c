#include "pcc.h"

/* A smoothing filter in fixed point, with eight bits after the point, whose output is kept within bounds. */

int clamp(int value, int low, int high) {
    int kept = value;
    if (kept < low)
        kept = low;
    if (kept > high)
        kept = high;
    return kept;
}

int blend(int level, int sample, int weight) {
    int change = (sample - level) * weight;
    return level + (change >> 8);
}

int main(void) {
    int level = 0;
    int i;

    for (i = 0; i < 48; i++) {
        int sample = i % 16 < 8 ? 4000 : -700;
        level = blend(level, sample, 96);
        int shown = clamp(level, 0, 2500);
        print(shown);
    }
    return 0;
}
