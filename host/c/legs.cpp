// A host in C++: an outgoing call is diverted three times, the last time on its
// second leg, and the host keeps the connection of each leg. Prints a line for each
// event: what to send, and which party is connected on which leg then.
#include <stdio.h>

#include "whipsail_text.h"

namespace {

class Panel {
public:
    void meet(const whipsail_event &event) {
        const whipsail_told told = whipsail_lent_step(table, WHIPSAIL_RECORDS, whipsail_input{station, event});
        station = told.station;
        printf("%s:", whipsail_kind_text(event.kind));
        if (told.answer.code != WHIPSAIL_DONE) {
            printf(" refused, %s\n", whipsail_refusal_text(told.answer.code));
            return;
        }
        if (event.kind == WHIPSAIL_OPEN_OUTGOING)
            legs[1] = event.first;
        if (event.kind == WHIPSAIL_RECEIVED && event.message == WHIPSAIL_RELEASE)
            legs[event.leg] = 0;
        for (const whipsail_message &message : told.answer.sent)
            send(message);
        if (legs[1] == 0) { // what was leg 2 is leg 1
            legs[1] = legs[2];
            legs[2] = 0;
        }
        printf(" legs %u %u\n", legs[1], legs[2]);
    }

private:
    void send(const whipsail_message &message) {
        if (message.letter == WHIPSAIL_NO_MESSAGE)
            return;
        printf(" %s on %u,", whipsail_letter_text(message.letter), message.leg);
        if (message.letter == 'X')
            legs[message.leg] = 0;
        if (message.letter == 'S')
            legs[message.leg] = message.destination;
    }

    whipsail_call table[WHIPSAIL_RECORDS] = {};
    whipsail_station station = whipsail_fresh_short();
    unsigned legs[3] = {}; // the party on each leg, from 1; 0 is none
};

whipsail_event event(uint8_t kind, uint64_t time) {
    whipsail_event made = {};
    made.kind = kind;
    made.time = time;
    return made;
}

whipsail_event received(uint8_t leg, uint8_t message, uint64_t time) {
    whipsail_event made = event(WHIPSAIL_RECEIVED, time);
    made.leg = leg;
    made.message = message;
    return made;
}

whipsail_event reroute(uint8_t leg, uint8_t reason, uint16_t destination, uint64_t time) {
    whipsail_event made = event(WHIPSAIL_REROUTE, time);
    made.leg = leg;
    made.reason = reason;
    made.option = WHIPSAIL_WITH_NUMBER;
    made.counter = 1;
    made.identifier = 9;
    made.second = destination;
    return made;
}

} // namespace

int main() {
    Panel panel;
    whipsail_event open = event(WHIPSAIL_OPEN_OUTGOING, 1);
    open.first = 101;
    panel.meet(open);
    panel.meet(reroute(1, WHIPSAIL_CFU, 102, 2));
    panel.meet(received(1, WHIPSAIL_ALERTING, 3));
    panel.meet(reroute(1, WHIPSAIL_CFNR, 103, 4));
    panel.meet(reroute(2, WHIPSAIL_CFB, 104, 5));
    panel.meet(received(1, WHIPSAIL_RELEASE, 6));
    panel.meet(received(2, WHIPSAIL_ALERTING, 7));
    panel.meet(received(1, WHIPSAIL_CONNECT, 8));
    panel.meet(event(WHIPSAIL_END, 9));
    return 0;
}
