/* Follow me: a fitter at panel 7 has panel 3 forward its calls to panel 7, asks where it
 * forwards them to, and ends that. Both panels are stations of this program, so what one
 * sends is an event of the other; the last request is lost on the way, and ends by its
 * time. Prints a line for each event. */
#include <stdio.h>

#include "whipsail_text.h"

typedef struct panel {
    uint16_t number;
    whipsail_station station;
    whipsail_call table[4];
} panel;

/* One event at a panel; hands back the message that it sends. */
static whipsail_message meet(panel *p, whipsail_event event) {
    whipsail_told told = whipsail_lent_step(p->table, 4, (whipsail_input){p->station, event});
    p->station = told.station;
    whipsail_message sent = told.answer.sent[0];
    printf("%5llu panel %u, %s: ", (unsigned long long)event.time, p->number, whipsail_kind_text(event.kind));
    if (told.answer.code != WHIPSAIL_DONE)
        printf("refused, %s\n", whipsail_refusal_text(told.answer.code));
    else if (sent.letter != WHIPSAIL_NO_MESSAGE)
        printf("%s %u\n", whipsail_letter_text(sent.letter), told.answer.identifier);
    else if (event.kind == WHIPSAIL_CLOCK && told.answer.identifier != WHIPSAIL_NO_IDENTIFIER)
        printf("request %u ends\n", told.answer.identifier);
    else
        printf("done\n");
    return sent;
}

/* The user of a panel asks another one: the invoke goes there, and its answer back. */
static void ask(panel *from, panel *to, whipsail_event request) {
    uint8_t sort = request.kind - WHIPSAIL_ACTIVATION_REQUEST;
    whipsail_message invoke = meet(from, request);
    if (invoke.letter == WHIPSAIL_NO_MESSAGE)
        return; /* refused */
    whipsail_event received = {.kind = WHIPSAIL_ACTIVATION_INVOKE + sort, .reason = invoke.reason,
                               .identifier = invoke.identifier, .first = from->number,
                               .second = invoke.destination, .time = request.time + 1};
    whipsail_message answer = meet(to, received);
    uint8_t outcome = answer.letter == 'r' ? WHIPSAIL_ACTIVATION_RESULT : WHIPSAIL_ACTIVATION_ERROR;
    whipsail_event answered = {.kind = outcome + sort, .identifier = answer.identifier,
                               .second = answer.destination, .time = request.time + 2};
    meet(from, answered);
    if (answered.kind == WHIPSAIL_INTERROGATION_RESULT) /* the engine keeps nothing of it */
        printf("      panel %u forwards to %u\n", to->number, answered.second);
}

int main(void) {
    panel three = {.number = 3, .station = whipsail_fresh_short()};
    panel seven = {.number = 7, .station = whipsail_fresh_short()};
    whipsail_event follow = {.kind = WHIPSAIL_ACTIVATION_REQUEST, .reason = WHIPSAIL_CFU, .first = 3, .second = 7};
    follow.time = 1;
    ask(&seven, &three, follow);
    /* a number that was set may be checked; whatever the answer, it stays valid */
    ask(&three, &seven, (whipsail_event){.kind = WHIPSAIL_CHECK_REQUEST, .first = 7, .time = 11});
    whipsail_event where = {.kind = WHIPSAIL_INTERROGATION_REQUEST, .reason = WHIPSAIL_CFU, .first = 3, .time = 21};
    ask(&seven, &three, where);
    /* what is kept diverts no call by itself: the host does */
    meet(&three, (whipsail_event){.kind = WHIPSAIL_OPEN_INCOMING, .first = 3, .time = 31});
    meet(&three, (whipsail_event){.kind = WHIPSAIL_DIVERT, .call = 0, .reason = WHIPSAIL_CFU,
                                  .second = three.station.remote.kept.cfu, .time = 32});
    whipsail_event no_more = {.kind = WHIPSAIL_DEACTIVATION_REQUEST, .reason = WHIPSAIL_CFU, .first = 3, .time = 41};
    ask(&seven, &three, no_more);
    no_more.time = 51;
    ask(&seven, &three, no_more); /* none stands any more */
    follow.time = 61;
    meet(&seven, follow); /* lost on the way */
    follow.time = 62;
    meet(&seven, follow);
    meet(&seven, (whipsail_event){.kind = WHIPSAIL_CLOCK, .time = 61 + WHIPSAIL_T2 - 1});
    meet(&seven, (whipsail_event){.kind = WHIPSAIL_CLOCK, .time = 61 + WHIPSAIL_T2});
    return 0;
}
