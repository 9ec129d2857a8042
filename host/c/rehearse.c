/* Who will ring tonight: a plan of five panels, rehearsed from each of them. */
#include <stdio.h>

#include "whipsail_text.h"

static const uint16_t plan[] = {
    /* cfu, cfb, cfnr, marks */
    2, 0, 0, WHIPSAIL_MARKS(0, 0), /* 1 forwards all calls */
    0, 3, 0, WHIPSAIL_MARKS(1, 0), /* 2 is busy */
    0, 0, 4, WHIPSAIL_MARKS(0, 1), /* 3 is unattended */
    0, 5, 5, WHIPSAIL_MARKS(0, 0), /* 4 rings: it is neither */
    0, 0, 4, WHIPSAIL_MARKS(1, 1), /* 5 is busy, and has no cfb */
};

enum { NUMBERS = sizeof plan / sizeof plan[0] };

int main(void) {
    for (uint16_t start = 1; start <= NUMBERS / 4; start++) {
        whipsail_rehearsed told = whipsail_rehearse(plan, NUMBERS, start);
        if (told.code == WHIPSAIL_DONE)
            printf("0 %u %s %u\n", told.last, whipsail_ending_text(told.ending), told.counter);
        else
            printf("%u - - -\n", told.code);
    }
    return 0;
}
