/* Answers requests about the library, so that a program of another language or
 * for another processor can call it. A request is its length (four bytes) and
 * then commands, each a letter and its arguments; all structs are as they lie
 * in memory, and counts are size_t:
 *
 *   B board                     the board that the next event and the next run meet:
 *                               each goes on from what it has left itself
 *   E event                     a step on the board's records, lent in place; replies
 *                               whipsail_answer and the board
 *   N count bytes               a run on the board by value; replies whipsail_ran
 *   L count from len input call.. lends len of the count records, from one on;
 *                               replies whipsail_told and all records
 *   W event                     replies one byte: well made
 *   F limit enabled allowed     replies whipsail_made
 *   S                           replies whipsail_station
 *   V                           replies the archive's format number, four bytes
 *   R count place bytes         replies whipsail_read
 *   P count from len start number.. lends len of the count numbers as a plan;
 *                               replies whipsail_rehearsed and all numbers */
#include <stdio.h>
#include <stdlib.h>
#include <string.h>

#include "whipsail.h"

static uint8_t *at;
static uint8_t *end;

static void stop(const char *why) {
    fprintf(stderr, "serve: %s\n", why);
    exit(1);
}

static void take(void *to, size_t size) {
    if ((size_t)(end - at) < size)
        stop("a request ends too early");
    memcpy(to, at, size);
    at += size;
}

static size_t count(void) {
    size_t n;
    take(&n, sizeof n);
    return n;
}

/* That many bytes of the request itself. */
static uint8_t *bytes(size_t size) {
    uint8_t *here = at;
    if ((size_t)(end - at) < size)
        stop("a request ends too early");
    at += size;
    return here;
}

static void give(const void *from, size_t size) {
    if (fwrite(from, 1, size, stdout) != size)
        stop("nobody reads");
}

static whipsail_event event(void) {
    whipsail_event e;
    take(&e, sizeof e);
    return e;
}

/* What the next event meets, and the next run. */
static whipsail_board lent, by_value;

static void set_board(void) {
    take(&lent, sizeof lent);
    memcpy(&by_value, &lent, sizeof lent); /* padding too */
}

static void step(void) {
    if (lent.len > WHIPSAIL_RECORDS)
        stop("a board does not have so many records to lend");
    whipsail_told told = whipsail_lent_step(lent.calls, lent.len, (whipsail_input){lent.station, event()});
    lent.station = told.station;
    give(&told.answer, sizeof told.answer);
    give(&lent, sizeof lent);
}

static void run(void) {
    size_t size = count();
    whipsail_ran ran = whipsail_run(by_value, bytes(size), size);
    by_value = ran.board;
    give(&ran, sizeof ran);
}

/* What follows in the request, by itself in memory, so that it is aligned. */
static void *lay(size_t all, size_t size) {
    if (all > (size_t)(end - at) / size)
        stop("more to lend than there is");
    void *laid = malloc(all * size + 1);
    if (laid == NULL)
        stop("no memory");
    take(laid, all * size);
    return laid;
}

static void lent_step(void) {
    size_t all = count(), from = count(), len = count();
    whipsail_input input;
    take(&input, sizeof input);
    whipsail_call *calls = lay(all, sizeof *calls);
    if (from > all || len > all - from)
        stop("more records than there are");
    whipsail_told told = whipsail_lent_step(calls + from, len, input);
    give(&told, sizeof told);
    give(calls, all * sizeof *calls);
    free(calls);
}

static void read_event(void) {
    size_t size = count(), place = count();
    whipsail_read found = whipsail_event_at(bytes(size), size, place);
    give(&found, sizeof found);
}

static void rehearse(void) {
    size_t all = count(), from = count(), len = count();
    uint16_t start;
    take(&start, sizeof start);
    uint16_t *numbers = lay(all, sizeof *numbers);
    if (from > all || len > all - from)
        stop("more numbers than there are");
    whipsail_rehearsed told = whipsail_rehearse(numbers + from, len, start);
    give(&told, sizeof told);
    give(numbers, all * sizeof *numbers);
    free(numbers);
}

static void well_made(void) {
    uint8_t good = whipsail_well_made(event());
    give(&good, 1);
}

static void fresh(void) {
    uint8_t limit, marks[2];
    take(&limit, 1);
    take(marks, 2);
    whipsail_made made = whipsail_fresh(limit, marks[0], marks[1]);
    give(&made, sizeof made);
}

static void fresh_short(void) {
    whipsail_station station = whipsail_fresh_short();
    give(&station, sizeof station);
}

static void format(void) {
    uint32_t number = whipsail_layout_linked();
    give(&number, sizeof number);
}

static void command(void) {
    uint8_t letter;
    take(&letter, 1);
    switch (letter) {
    case 'B': set_board(); break;
    case 'E': step(); break;
    case 'N': run(); break;
    case 'L': lent_step(); break;
    case 'W': well_made(); break;
    case 'F': fresh(); break;
    case 'S': fresh_short(); break;
    case 'V': format(); break;
    case 'R': read_event(); break;
    case 'P': rehearse(); break;
    default: stop("an unknown command");
    }
}

int main(void) {
    uint8_t *request = NULL;
    uint32_t size;
    while (fread(&size, sizeof size, 1, stdin) == 1) {
        request = realloc(request, (size_t)size + 1);
        if (request == NULL || fread(request, 1, size, stdin) != size)
            stop("a request is cut");
        at = request;
        end = request + size;
        while (at < end)
            command();
        fflush(stdout);
    }
    free(request);
    return 0;
}
