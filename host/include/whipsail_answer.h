/* What to send and what to show: answers. A part of whipsail.h, which includes it. */
#ifndef WHIPSAIL_ANSWER_H
#define WHIPSAIL_ANSWER_H

#include <stdint.h>

/* How an answer holds "none": 0 is a call, a reason and an identifier (that of
 * an invoke that is received, echoed; our own are 1 to 65535), but neither a
 * party number nor a counter that is sent, nor a letter. */
#define WHIPSAIL_NO_CALL 255
#define WHIPSAIL_NO_NOTICE 255
#define WHIPSAIL_NO_IDENTIFIER 65536
#define WHIPSAIL_NO_NUMBER 0
#define WHIPSAIL_NO_COUNTER 0
#define WHIPSAIL_NO_MESSAGE 0

/* Why an event is refused, and what to do. More codes may come, of later archives
 * of the same layout: every code but WHIPSAIL_DONE is a refusal and has changed
 * nothing, so drop the event of one that you do not know, and report its number. They
 * are tested in this order; kinds 16 to 31, which name no call, never get 4, 10, 7 or 8.
 *
 * Earlier archives had one code, WHIPSAIL_NOT_IN_STATE = 5, where 10 and 11 stand: it
 * was split, and 5 is no longer given. Its name is gone, so that a host which has it does
 * not compile: name 10 and 11 in its place, and where they need not be told apart, do for
 * both what was done for 5. A bare 5 still compiles, but no answer meets it: look for it. */
enum {
    WHIPSAIL_DONE = 0,
    WHIPSAIL_NOT_SOUND = 1,             /* the table is empty, too long or not sound, or the station is not
                                           (whipsail_station says when): lend both as they were left, or start again
                                           with zeroed records and a fresh station */
    WHIPSAIL_TIME_BEFORE = 2,           /* its time is before that of the last done event: keep to the order of times */
    WHIPSAIL_NOT_WELL_MADE = 3,         /* its kind or a field (or a limit, mark, plan, start): correct what makes it */
    WHIPSAIL_NO_SUCH_CALL = 4,          /* past the table's end, free, or of the other direction: look up the record */
    WHIPSAIL_NOT_IN_BASIC_STATE = 10,   /* too early or too late: no call in this basic state (`basic` of the record)
                                           takes it, however its diversion stands. So ALERTED once it rings, LEG_FAILED
                                           before that, RESULT once it is answered, DIVERT for the reason of another
                                           state; FACILITY on leg 2 in every state. Drop it */
    WHIPSAIL_NOT_IN_SERVICE_STATE = 11, /* the basic state takes it, the call's diversion does not: DIVERT while a
                                           request is open or granted (already asked, already granted), ALERTED and
                                           ANSWERED while that is CFU or CFB (the call is being diverted away); RESULT
                                           and ERROR with no request open, LEG_FAILED with no CFNR granted; leg 2 where
                                           there is none; FACILITY before any DLI1; of kinds 24 to 31: none of its sort
                                           is pending. Drop it; what an open request forbids may be taken after it */
    WHIPSAIL_OTHER_IDENTIFIER = 6,      /* a result or error, and the open request, of kinds 24 to 31 the pending one of
                                           its sort, has another identifier: drop it */
    WHIPSAIL_OVER_LIMIT = 7,            /* one diversion more than the limit: let the call ring, or end it */
    WHIPSAIL_TABLE_FULL = 8,            /* an open, and no record is free: turn the call down */
    WHIPSAIL_ALREADY_ASKED = 9          /* kinds 16 to 19: one of the same sort is pending: wait for its answer, or for
                                           the clock event that ends it */
};

/* Which connection is which leg. An incoming call has leg 1 alone. Of an outgoing
 * call leg 1 is the connection to `party` of its record; leg 2, that to the last
 * number of `waiting`, is there while `cdr` is Invoked. Legs change their numbers, in
 * one case (RELEASE on leg 1 in Invoked) without a message. Send the messages in
 * their order, each on the leg as it was numbered before the event. A leg ends by X
 * sent on it or RELEASE received on it, and S opens the leg that it bears; where
 * leg 1 has ended and none was opened in its place, leg 2 is leg 1 from then on:
 *
 *   event             leg  where                   sends     legs then
 *   REROUTE CFU, CFB  1    Proceeding, Delivered   R1 X1 S1  SETUP is 1
 *   REROUTE CFNR      1    Delivered               R1 S2     SETUP is 2
 *   REROUTE CFNR      1    Proceeding              E1        same
 *   REROUTE           1    Active, Invoked         E1        same
 *   REROUTE CFU, CFB  2    Invoked (room)          R2 X2 S2  SETUP is 2
 *   REROUTE CFU, CFB  2    Invoked (full)          E2        same
 *   REROUTE CFNR      2    Invoked                 E2        same
 *   DLI1              -    all but Active          -         same
 *   FACILITY          1    all but Active          -         same
 *   ALERTING          1    all but Active          -         same
 *   CONNECT           1    Proceeding, Delivered   -         same
 *   CONNECT           1    Invoked                 X2        2 is gone
 *   ALERTING          2    Invoked                 X1        2 is 1
 *   CONNECT           2    Invoked                 X1        2 is 1
 *   RELEASE           1    Invoked                 -         2 is 1
 *   RELEASE           2    Invoked                 F1        2 is gone
 *   RELEASE           1    all but Invoked         -         none
 *   END               -    all but Invoked         X1        none
 *   END               -    Invoked                 X1 X2     none
 *
 * FACILITY to RELEASE are the messages of RECEIVED. `Delivered` is here that without
 * leg 2, `Invoked` that with it: with room while fewer than 15 DLI1s wait, full where
 * 15 do (whipsail_waits). "SETUP is 1": R1 and X1 go on the connection that was leg 1,
 * and that of the SETUP is leg 1; after X2 "SETUP is 2" says the same of leg 2, while
 * leg 1 rings on. "none": the record is free. All else is refused, FACILITY also where
 * `cdo` is Idle: with 11 that FACILITY, on leg 1 before Active, and all but FACILITY on
 * leg 2 in Delivered; with 10 what is left.
 *
 * On an incoming call ALERTED sends A1, ANSWERED C1 (where `cdf` is Wait: D1), DIVERT
 * I1 and END X1; all other events, and the opens, send nothing. */

/* A message to send, by its letter in ASCII, and the arguments that it has; one that
 * it does not have is 0.
 *
 *   A  ALERTING
 *   C  CONNECT
 *   D  CONNECT with DLI3             flag, number
 *   I  callRerouting invoke          reason, option, counter, identifier, destination, diverting, original
 *   R  its result                    identifier
 *   E  its error                     identifier
 *   X  RELEASE COMPLETE
 *   S  SETUP with DLI2               reason, counter, destination, diverting, original
 *   F  cfnrDivertedLegFailed
 *   a  activateDiversionQ invoke     reason, identifier, destination, number
 *   d  deactivateDiversionQ invoke   reason, identifier, number
 *   i  interrogateDiversionQ invoke  reason, identifier, number
 *   c  checkRestriction invoke       identifier, number
 *   r  result of one of these        identifier, destination
 *   e  error of one of these         identifier
 *
 * Small letters belong to no call and have leg 0: a, d, i and c go to the far panel
 * `number` on a connection of their own, r and e back on the connection on which the
 * invoke came. `reason` is the type of the forward. Of r only the result to an
 * interrogation has a destination, that which is kept.
 *
 * More letters may come, perhaps without a leg, of later archives of the same
 * layout. A host that meets one it does not know sends nothing in its place, sends
 * the others, and reports the letter: what it leaves out, the far end waits for. */
typedef struct whipsail_message {
    uint8_t letter;
    uint8_t leg; /* 0 of the small letters */
    uint8_t reason;
    uint8_t option;
    uint8_t counter; /* this diversion included */
    uint8_t flag;    /* presentation allowed */
    uint16_t identifier;
    uint16_t destination; /* of S: the party to call; of a and r: where the forward leads */
    uint16_t diverting;   /* of I: the last rerouting number, our own */
    uint16_t original;    /* the original called number, or 0 */
    uint16_t number;      /* of D: the own number, if allowed; of a, d, i, c: the far panel */
} whipsail_message;

/* The answer to one event. The messages are to be sent in their order; those
 * past the last one have the letter WHIPSAIL_NO_MESSAGE. */
typedef struct whipsail_answer {
    uint8_t code; /* WHIPSAIL_DONE, or why not: then all else is none */
    uint8_t call; /* none of kinds 16 to 31, and where T2 to T5 has ended */
    whipsail_message sent[3];
    uint8_t notice;  /* reason told to the caller; one that you do not know: as WHIPSAIL_UNKNOWN */
    uint16_t number; /* shown to the caller */
    uint32_t identifier; /* of I, R, E or a small letter, or of the request that a CLOCK has ended */
    uint8_t counter;     /* of I or S */
} whipsail_answer;

#endif
