/* Prints each struct of whipsail.h with its size, and below it each field with
 * its offset and its size. */
#include <stdio.h>

#include "whipsail.h"

#define SIZE(type, bytes) printf(#type " %zu\n", sizeof(whipsail_##type));
#define AT(type, field, at)                                                                                            \
    printf("  " #field " %zu %zu\n", offsetof(whipsail_##type, field), sizeof(((whipsail_##type *)0)->field));

int main(void) {
    WHIPSAIL_LAYOUT(SIZE, AT)
    return 0;
}
