/* What happened: events. A part of whipsail.h, which includes it. */
#ifndef WHIPSAIL_EVENT_H
#define WHIPSAIL_EVENT_H

#include <stdint.h>

/* Kinds of events and the fields that each uses beside the time; what each sends
 * and does to the legs stands in whipsail_answer.h. More kinds may come; an
 * archive that does not know one refuses it with 3. Kinds 16 to 31 set forwards from
 * another panel; they stand below.
 *
 * DIVERT: CFU and CFB before ALERTED, CFNR after it (else 10), and no request open or
 * granted (else 11). A request that nobody answers for 10,000 ms (T1) ends at the next
 * CLOCK, one for each; the call then stands as before: let it ring, or divert again.
 * RESULT sends nothing: the record stays, granted, until FAR_END (the far end's
 * RELEASE COMPLETE) or END, and with CFNR until ANSWERED or LEG_FAILED; a host
 * that may wait for these in vain keeps a timer. ALERTED and ANSWERED are refused
 * with 11 while CFU or CFB is open or granted. END and FAR_END free an incoming record,
 * END and RECEIVED with RELEASE on leg 1, where there is no leg 2, an outgoing one; its
 * place is used again. */
enum {
    WHIPSAIL_OPEN_OUTGOING = 1, /* first: party; the host has sent the SETUP, and its connection is leg 1 */
    WHIPSAIL_OPEN_INCOMING = 2, /* first: own number */
    WHIPSAIL_OPEN_DIVERTED = 3, /* the same with DLI2: also reason, counter 1 to 15; second: diverting number,
                                   third: original called */
    WHIPSAIL_ALERTED = 4,       /* call; of an incoming call, as 5 to 9 */
    WHIPSAIL_ANSWERED = 5,      /* call; flag 1: the own number may be shown */
    WHIPSAIL_DIVERT = 6,        /* call, reason 1 to 3, option; second: destination */
    WHIPSAIL_RESULT = 7,        /* call, identifier, not 0 */
    WHIPSAIL_ERROR = 8,         /* call, identifier, not 0; also a reject */
    WHIPSAIL_LEG_FAILED = 9,    /* call */
    WHIPSAIL_CLOCK = 10,        /* none; send one now and then, until its answer has no identifier */
    WHIPSAIL_END = 11,          /* call: the own side ends it */
    WHIPSAIL_REROUTE = 12,      /* of an outgoing call, as 13 and 14: call, leg, reason 1 to 3, option, counter 1 to 15,
                                   identifier, also 0; second: destination, third: original called */
    WHIPSAIL_DLI1 = 13,         /* call, reason, option; second: nominated number */
    WHIPSAIL_RECEIVED = 14,     /* call, leg, message, flag; second: number of the DLI3 */
    WHIPSAIL_FAR_END = 15       /* call: the far end ends an incoming one */
};

/* Setting a forward from another panel ("follow me"). These kinds name no call: `call`
 * is 0, no call is in their answers, and the table stays as it is. There are four
 * sorts of request; each kind is 16, 20, 24 or 28 and its sort. `first` is the far
 * panel's number, which decides nothing here: a host connects to it, or answers on the
 * connection on which the invoke came. `reason` is the type of the forward, CFU, CFB
 * or CFNR.
 *
 * 16 to 19: our user asks the panel `first`, and the invoke is sent with an identifier
 * that no open request of the station or the table has. At most one of each sort is
 * pending; another is refused with 9. It ends by a result or an error of its sort with
 * its identifier, or by a CLOCK at or after its time: T2 of an activation, T3, T4 and T5
 * of the others, in ms. An expiry equals a reject. A CLOCK ends one request, those of
 * calls first (by their place), then T2 to T5 in this order; the answer has its
 * identifier and, of T2 to T5, no call. 68 CLOCKs at one time leave nothing due.
 *
 * 20 to 23: a far panel asks us; the answer, r or e, echoes its identifier, 0 too. An
 * activation is kept, over any that stands of its type, and gets the result where
 * remote activation is enabled, else the error, and then nothing is kept. It sends no
 * check by itself; a host that wants one asks (19). A deactivation ends the one that
 * stands of its type, and an interrogation's result carries its destination; where none
 * stands, each gets the error; the mark is not read. A check gets the result where
 * diversion to us is allowed, else the error. What is kept diverts no call by itself:
 * the host looks at it (whipsail_kept), and diverts by DIVERT.
 *
 * 24 to 31: an answer to ours; none pending of its sort is refused with 11, another
 * identifier, 0 too, with 6. Done, it ends the request, sends nothing, and its answer
 * is empty: what became of the request is in the event, and is the host's to tell its
 * user. The destination of 26 is for the host alone; the engine keeps and shows none.
 * By clause 9.3.4 of H.450.3 any answer to a check, result, error or reject, and T5's
 * expiry, leaves the number valid. The engine shows that by ending the request and by
 * nothing else: no destination is dropped or changed by it. */
enum {
    WHIPSAIL_ACTIVATION_REQUEST = 16,    /* first: far panel, reason 1 to 3: type; second: destination */
    WHIPSAIL_DEACTIVATION_REQUEST = 17,  /* first, reason */
    WHIPSAIL_INTERROGATION_REQUEST = 18, /* first, reason */
    WHIPSAIL_CHECK_REQUEST = 19,         /* first: may calls be diverted to it? */
    WHIPSAIL_ACTIVATION_INVOKE = 20,     /* identifier, also 0, as 21 to 23; first, reason; second: destination */
    WHIPSAIL_DEACTIVATION_INVOKE = 21,   /* identifier; first, reason */
    WHIPSAIL_INTERROGATION_INVOKE = 22,  /* identifier; first, reason */
    WHIPSAIL_CHECK_INVOKE = 23,          /* identifier; first */
    WHIPSAIL_ACTIVATION_RESULT = 24,     /* identifier, as 25 to 31 */
    WHIPSAIL_DEACTIVATION_RESULT = 25,
    WHIPSAIL_INTERROGATION_RESULT = 26,  /* also second: the destination that stands there */
    WHIPSAIL_CHECK_RESULT = 27,
    WHIPSAIL_ACTIVATION_ERROR = 28,      /* an error or a reject, as 29 to 31 */
    WHIPSAIL_DEACTIVATION_ERROR = 29,
    WHIPSAIL_INTERROGATION_ERROR = 30,
    WHIPSAIL_CHECK_ERROR = 31
};

/* Sorts of request, and how long each waits for its answer, in ms. */
enum { WHIPSAIL_ACTIVATION = 0, WHIPSAIL_DEACTIVATION = 1, WHIPSAIL_INTERROGATION = 2, WHIPSAIL_CHECK = 3 };
#define WHIPSAIL_T2 30000
#define WHIPSAIL_T3 15000
#define WHIPSAIL_T4 15000
#define WHIPSAIL_T5 15000

/* Reasons (1 to 3 are also the types of a forward), options, messages that are
 * received, and their flags. */
enum { WHIPSAIL_UNKNOWN = 0, WHIPSAIL_CFU = 1, WHIPSAIL_CFB = 2, WHIPSAIL_CFNR = 3 };
enum { WHIPSAIL_NO_NOTIFICATION = 0, WHIPSAIL_WITHOUT_NUMBER = 1, WHIPSAIL_WITH_NUMBER = 2 };
enum { WHIPSAIL_FACILITY = 1, WHIPSAIL_ALERTING = 2, WHIPSAIL_CONNECT = 3, WHIPSAIL_RELEASE = 4 };
enum { WHIPSAIL_NO_DLI3 = 0, WHIPSAIL_DLI3_ALLOWED = 1, WHIPSAIL_DLI3_FORBIDDEN = 2 };

/* One event; a field that its kind does not use is 0. */
typedef struct whipsail_event {
    uint8_t kind;
    uint8_t call; /* place in the table, from 0 */
    uint8_t leg;  /* 1 or 2: of the connection on which it came, as it is numbered before the event */
    uint8_t message;
    uint8_t reason;
    uint8_t option;
    uint8_t counter;
    uint8_t flag;
    uint16_t identifier;
    uint16_t first;
    uint16_t second;
    uint16_t third;
    uint64_t time; /* ms */
} whipsail_event;

#endif
