/* A host in a page: owns a table of call records and a station, lends them to
 * the engine for each of the page's nine events, and prints the panel's lines. */
#include <stdio.h>

#include "whipsail.h"

static const whipsail_event events[] = {
    {.kind = WHIPSAIL_OPEN_OUTGOING, .first = 101, .time = 1},
    {.kind = WHIPSAIL_REROUTE, .call = 0, .leg = 1, .reason = WHIPSAIL_CFU, .option = WHIPSAIL_WITH_NUMBER,
     .counter = 1, .identifier = 9, .second = 207, .time = 2},
    {.kind = WHIPSAIL_RECEIVED, .call = 0, .leg = 1, .message = WHIPSAIL_CONNECT, .flag = WHIPSAIL_DLI3_ALLOWED,
     .time = 3},
    {.kind = WHIPSAIL_OPEN_INCOMING, .first = 102, .time = 4},
    {.kind = WHIPSAIL_DIVERT, .call = 1, .reason = WHIPSAIL_CFU, .second = 300, .time = 1000},
    {.kind = WHIPSAIL_CLOCK, .time = 10999},
    {.kind = WHIPSAIL_CLOCK, .time = 11000},
    {.kind = WHIPSAIL_DIVERT, .call = 1, .reason = WHIPSAIL_CFU, .second = 300, .time = 11001},
    {.kind = WHIPSAIL_RESULT, .call = 1, .identifier = 65535, .time = 11002},
};

static void column(unsigned value, unsigned none) {
    if (value == none)
        printf(" -");
    else
        printf(" %u", value);
}

static void line(unsigned position, const whipsail_answer *a) {
    printf("%u %u", position, a->code);
    column(a->call, WHIPSAIL_NO_CALL);
    column(a->notice, WHIPSAIL_NO_NOTICE);
    column(a->number, WHIPSAIL_NO_NUMBER);
    column(a->identifier, WHIPSAIL_NO_IDENTIFIER);
    column(a->counter, WHIPSAIL_NO_COUNTER);
    printf(a->sent[0].letter == WHIPSAIL_NO_MESSAGE ? " -" : " ");
    for (int i = 0; i < 3 && a->sent[i].letter != WHIPSAIL_NO_MESSAGE; i++)
        printf("%c%u", a->sent[i].letter, a->sent[i].leg);
    printf("\n");
}

int main(void) {
    /* what a panel keeps: all 0 is a table of free records */
    static whipsail_call table[WHIPSAIL_RECORDS];
    whipsail_station station = whipsail_fresh(15, 1, 1).station; /* as the printout has it; the short form has 5 */
    for (unsigned i = 0; i < sizeof events / sizeof events[0]; i++) {
        whipsail_input input = {station, events[i]};
        whipsail_told told = whipsail_lent_step(table, WHIPSAIL_RECORDS, input);
        station = told.station;
        line(i, &told.answer);
    }
    return 0;
}
