/* Who will ring tonight? A plan of forwardings, rehearsed without a call. A part
 * of whipsail.h, which includes it. */
#ifndef WHIPSAIL_PLAN_H
#define WHIPSAIL_PLAN_H

#include <stddef.h>
#include <stdint.h>

#ifdef __cplusplus
extern "C" {
#endif

/* A plan has 1 to 256 panels, whose numbers are their places from 1, and four
 * numbers for each: cfu, cfb and cfnr (a panel's number, or 0 for none), and the
 * marks, 0 or 1 each: busy in the low byte, unattended in the high one. */
#define WHIPSAIL_PANELS 256
#define WHIPSAIL_MARKS(busy, unattended) ((uint16_t)(((busy) ? 1 : 0) | ((unattended) ? 256 : 0)))

/* How a rehearsed call ends; AT_LIMIT where one more forward would exceed the limit
 * of whipsail_fresh_short, as in any circle. */
enum { WHIPSAIL_RINGS = 1, WHIPSAIL_BUSY = 2, WHIPSAIL_AT_LIMIT = 3 };

/* `code` is WHIPSAIL_DONE, or WHIPSAIL_NOT_WELL_MADE: then ending and last are 0,
 * and the counter is 255, as 0 is one. */
typedef struct whipsail_rehearsed {
    uint8_t code;
    uint8_t ending;
    uint16_t last;   /* number of the panel where it ends */
    uint8_t counter; /* how often it was forwarded */
} whipsail_rehearsed;

/* Where a call ends that the panel `start` is offered first. A panel forwards it to
 * its cfu; else, if busy, to its cfb, and with none is busy; else, if unattended, to
 * its cfnr; else it rings. Refused are: a count of numbers that is not four for each
 * of 1 to 256 panels; a start outside the plan, 0 too; a destination outside it,
 * reached or not; a mark above 1. `plan` is not null, also where `numbers` is 0, is
 * aligned to 2, and is only read. */
whipsail_rehearsed whipsail_rehearse(const uint16_t *plan, size_t numbers, uint16_t start);

#ifdef __cplusplus
}
#endif

#endif
