/* For files of events, and for tables by value: a panel needs none of this. A part
 * of whipsail.h, which includes it. */
#ifndef WHIPSAIL_FILES_H
#define WHIPSAIL_FILES_H

#include <stddef.h>
#include <stdint.h>

#include "whipsail_event.h"
#include "whipsail_kept.h"

#ifdef __cplusplus
extern "C" {
#endif

/* Bytes of one event record in a file. */
#define WHIPSAIL_EVENT_BYTES 24

/* `whole` is 1, or 0 where fewer than 24 bytes are left: then the event is all
 * 0, which a step refuses with 3, unless 1 or 2 is met before. */
typedef struct whipsail_read {
    uint8_t whole;
    whipsail_event event;
} whipsail_read;

/* A station and its table by value. `len` is the table's length, 1 to 64: the
 * records from calls[len] on are no part of it, never read for an answer and
 * never changed. A run on a length of 0 or above 64 refuses every event with 1.
 *
 * (Earlier archives had whipsail_step, one event on a board by value. Instead,
 * where board.len is up to 64, use whipsail_lent_step(board.calls, board.len, ..)
 * with board.station, and keep the station that comes back in the board.) */
typedef struct whipsail_board {
    whipsail_station station;
    size_t len;
    whipsail_call calls[WHIPSAIL_RECORDS];
} whipsail_board;

/* What a run leaves: how many events were done and how many refused, the byte
 * count of a cut last record (it is not run), and the board. */
typedef struct whipsail_ran {
    uint64_t done;
    uint64_t refused;
    size_t cut;
    whipsail_board board;
} whipsail_ran;

/* All whole records of 24 bytes among `len` bytes, one after the other, as
 * whipsail_lent_step would do them; the table is tested once. `bytes` is not
 * null, also where `len` is 0. */
whipsail_ran whipsail_run(whipsail_board board, const uint8_t *bytes, size_t len);

/* The event whose 24 bytes, big-endian in the order of whipsail_event, start at
 * `place` among `len` bytes. `bytes` is not null, also where `len` is 0. */
whipsail_read whipsail_event_at(const uint8_t *bytes, size_t len, size_t place);

#ifdef __cplusplus
}
#endif

#endif
