/* stack FILE..: how deep a step on a lent table goes, and a run. Plays the event
 * records of each file on a fresh table in both ways, paints the stack before each
 * call, and prints the most that one has overwritten, counted from its caller's
 * frame. */
#include <stdio.h>

#include "whipsail.h"

enum { PAINTED = 256 * 1024, PAINT = 0xA5, MOST = 4 * 1024 * 1024 };

static uintptr_t lowest;

__attribute__((noinline)) static void paint(void) {
    volatile uint8_t area[PAINTED];
    for (size_t i = 0; i < PAINTED; i++)
        area[i] = PAINT;
    lowest = (uintptr_t)area;
}

/* How far below a frame the paint is gone. */
static size_t depth_below(uintptr_t frame) {
    volatile uint8_t *touched = (volatile uint8_t *)lowest;
    while (*touched == PAINT)
        touched++;
    return frame - (uintptr_t)touched;
}

/* These have nothing in their frames but the arguments of the call and its result. */
__attribute__((noinline)) static uintptr_t lent(whipsail_call *table, const whipsail_input *input, whipsail_told *told) {
    *told = whipsail_lent_step(table, WHIPSAIL_RECORDS, *input);
    return (uintptr_t)__builtin_frame_address(0);
}

__attribute__((noinline)) static uintptr_t run(const whipsail_board *board, const uint8_t *bytes, size_t len,
                                               whipsail_ran *ran) {
    *ran = whipsail_run(*board, bytes, len);
    return (uintptr_t)__builtin_frame_address(0);
}

static size_t deepest_lent, deepest_run, events;

static void deepen(size_t *deepest, uintptr_t frame) {
    size_t depth = depth_below(frame);
    if (depth > *deepest)
        *deepest = depth;
}

static void play(const uint8_t *bytes, size_t len) {
    static whipsail_board start;
    static whipsail_call table[WHIPSAIL_RECORDS];
    static whipsail_ran ran;
    whipsail_told told;
    start = (whipsail_board){.station = whipsail_fresh(15, 1, 1).station, .len = WHIPSAIL_RECORDS};
    for (size_t i = 0; i < WHIPSAIL_RECORDS; i++)
        table[i] = start.calls[i];
    whipsail_input input = {.station = start.station};
    for (size_t at = 0; at + WHIPSAIL_EVENT_BYTES <= len; at += WHIPSAIL_EVENT_BYTES, events++) {
        input.event = whipsail_event_at(bytes, len, at).event;
        paint();
        deepen(&deepest_lent, lent(table, &input, &told));
        input.station = told.station;
    }
    paint();
    deepen(&deepest_run, run(&start, bytes, len, &ran));
}

static void tell(const char *what, size_t deepest, size_t arguments, size_t result) {
    printf("  %-14s%6zu = arguments %zu + result %zu + its own %zu\n", what, deepest, arguments, result,
           deepest - arguments - result);
}

int main(int count, char **files) {
    static uint8_t bytes[MOST];
    for (int i = 1; i < count; i++) {
        FILE *file = fopen(files[i], "rb");
        if (file == NULL) {
            fprintf(stderr, "stack: no file %s\n", files[i]);
            return 1;
        }
        play(bytes, fread(bytes, 1, sizeof bytes, file));
        fclose(file);
    }
    printf("deepest stack in bytes over %zu events\n", events);
    tell("lent entry", deepest_lent, sizeof(whipsail_input), sizeof(whipsail_told));
    tell("run", deepest_run, sizeof(whipsail_board), sizeof(whipsail_ran));
    return 0;
}
