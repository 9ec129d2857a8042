/* The proved call diversion engine, in libwhipsail.a (`host/lib` makes it).
 *
 * A host keeps a station and a table of call records, and lends both to each
 * event:
 *
 *     whipsail_call table[64] = {0};
 *     whipsail_station station = whipsail_fresh_short();
 *     whipsail_event event = {.kind = WHIPSAIL_OPEN_OUTGOING, .first = 101, .time = 1};
 *     whipsail_told told = whipsail_lent_step(table, 64, (whipsail_input){station, event});
 *     station = told.station;
 *
 * and told.answer says what to send and what to show. Nothing is kept between
 * two calls, no memory is taken, and no pointer outlives its call. Any values
 * may be handed in; what the engine does not take is refused by number, and
 * then nothing has changed. Calls on different tables may run at the same time.
 * The archive needs memcpy and memset from its host.
 *
 * Words as "Wait" or "DLI1" are those of H.450.3; party numbers are 1 to 65535,
 * and 0 is an absent one. C11 or C++11, on a machine of 64 bits.
 *
 *   whipsail_event.h   what happened: kinds of events and their fields, calls and follow me
 *   whipsail_answer.h  what to send and show: codes, messages, which leg is which
 *   whipsail_kept.h    what a host keeps: the record, the station, the format's number
 *   whipsail_files.h   files of events, tables by value; a panel needs none of it
 *   whipsail_plan.h    who will ring tonight
 *   whipsail_layout.h  where each field lies; the archive must be of the same layout
 *
 * This header includes all of these. whipsail_text.h, numbers in words, is for
 * those who want it. */
#ifndef WHIPSAIL_H
#define WHIPSAIL_H

#include <stdbool.h>
#include <stddef.h>
#include <stdint.h>

#include "whipsail_answer.h"
#include "whipsail_event.h"
#include "whipsail_kept.h"

#ifdef __cplusplus
extern "C" {
#endif

/* What an event meets beside the table that is lent to it. */
typedef struct whipsail_input {
    whipsail_station station;
    whipsail_event event;
} whipsail_input;

/* The answer, and the station after the event. */
typedef struct whipsail_told {
    whipsail_answer answer;
    whipsail_station station;
} whipsail_told;

/* `code` is 0, or 3 for a limit outside 1 to 15 or a mark above 1: then no station is
 * made, and all of it is 0. */
typedef struct whipsail_made {
    uint8_t code;
    whipsail_station station;
} whipsail_made;

/* A station of this limit, and with these marks: remote activation enabled, diversion
 * to us allowed. Last time 0, next identifier 65535, nothing pending, no destination
 * kept. */
whipsail_made whipsail_fresh(uint8_t limit, uint8_t enabled, uint8_t allowed);

/* The short form: limit 5, both marks set. (Its limit was 15 in earlier archives: a host
 * that wants that names it, whipsail_fresh(15, 1, 1); a station that was kept has the
 * limit it was made with.) */
whipsail_station whipsail_fresh_short(void);

/* One event on the `len` records at `table`, 1 to 64. `table` is not null, also
 * where `len` is 0, is aligned to 8, and is touched by nobody else during the
 * call. A done event changes at most one record, one of kinds 16 to 31 none; a refused
 * one changes nothing. Table and station are tested every time. */
whipsail_told whipsail_lent_step(whipsail_call *table, size_t len, whipsail_input input);

/* Whether kind and fields are as the table of kinds says: if not, a step
 * refuses the event with 3, unless 1 or 2 is met before. */
bool whipsail_well_made(whipsail_event event);

#ifdef __cplusplus
}
#endif

#include "whipsail_files.h"
#include "whipsail_plan.h"

/* Of all these structs, so it comes last. */
#include "whipsail_layout.h"

#endif
