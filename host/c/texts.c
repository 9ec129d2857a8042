/* Prints every text of whipsail_text.h: its function, the number, the words. */
#include <stdio.h>

#include "whipsail_text.h"

#define TEXTS(name)                                                                                                    \
    for (unsigned number = 0; number < 256; number++)                                                                  \
        printf(#name " %u %s\n", number, whipsail_##name##_text(number));

int main(void) {
    TEXTS(refusal)
    TEXTS(kind)
    TEXTS(letter)
    TEXTS(reason)
    TEXTS(ending)
    return 0;
}
