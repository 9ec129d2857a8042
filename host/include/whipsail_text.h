/* The numbers of whipsail.h in words, for a log or a help desk. Each function takes
 * any number and hands back a text that stays, in the words of the Rust wrapper:
 * host/compare/tests/texts.rs compares them. */
#ifndef WHIPSAIL_TEXT_H
#define WHIPSAIL_TEXT_H

#include "whipsail.h"

/* Why an event is refused, and what to do: of whipsail_answer.code. 5, which was split
 * into 10 and 11, is one that is not known. */
static inline const char *whipsail_refusal_text(unsigned code) {
    switch (code) {
    case WHIPSAIL_DONE:
        return "done";
    case WHIPSAIL_NOT_SOUND:
        return "table or station is not sound: lend 1 to 64 records as the engine left them, or start again with free "
               "ones and a fresh station";
    case WHIPSAIL_TIME_BEFORE:
        return "the time is before that of the last done event: hand events over in the order of their times";
    case WHIPSAIL_NOT_WELL_MADE:
        return "a field is outside its range or not used by this kind (a limit: 1 to 15; a mark: 0 or 1; a plan: 1 to "
               "256 panels, with start and destinations among them): correct what makes it";
    case WHIPSAIL_NO_SUCH_CALL:
        return "no such call: past the table's end, free, or of the other direction; look up which record is meant";
    case WHIPSAIL_NOT_IN_BASIC_STATE:
        return "too early or too late: no call in this state (not yet ringing, ringing or answered) takes this event, "
               "and none ever a FACILITY on leg 2: look at the record, and drop the event";
    case WHIPSAIL_NOT_IN_SERVICE_STATE:
        return "the call's state fits, but its diversion (already asked, already granted, being diverted away, no "
               "request open or granted, no forwarded leg, no diversion told yet) does not, or no request of this sort "
               "is pending: look at the record or the station, and drop the event";
    case WHIPSAIL_OTHER_IDENTIFIER:
        return "not the identifier of the call's open request, or of the pending one of this sort: drop this late or "
               "foreign answer";
    case WHIPSAIL_OVER_LIMIT:
        return "one diversion more than the limit: do not divert; let the call ring or end it";
    case WHIPSAIL_TABLE_FULL:
        return "no record is free: turn the call down, or lend a longer table (up to 64 records)";
    case WHIPSAIL_ALREADY_ASKED:
        return "a request of this sort is pending: wait for its answer, or for the clock event that ends it";
    default:
        return "a refusal of another archive, not known here: nothing has changed; drop the event, and report the "
               "number";
    }
}

/* What happened: of whipsail_event.kind. */
static inline const char *whipsail_kind_text(unsigned kind) {
    switch (kind) {
    case WHIPSAIL_OPEN_OUTGOING: return "outgoing call opened";
    case WHIPSAIL_OPEN_INCOMING: return "incoming call opened";
    case WHIPSAIL_OPEN_DIVERTED: return "diverted incoming call opened";
    case WHIPSAIL_ALERTED: return "user alerted";
    case WHIPSAIL_ANSWERED: return "user answers";
    case WHIPSAIL_DIVERT: return "user diverts";
    case WHIPSAIL_RESULT: return "callRerouting result received";
    case WHIPSAIL_ERROR: return "callRerouting error or reject received";
    case WHIPSAIL_LEG_FAILED: return "cfnrDivertedLegFailed received";
    case WHIPSAIL_CLOCK: return "time has passed";
    case WHIPSAIL_END: return "own side ends the call";
    case WHIPSAIL_REROUTE: return "callRerouting invoke received";
    case WHIPSAIL_DLI1: return "divertingLegInformation1 received";
    case WHIPSAIL_RECEIVED: return "message received";
    case WHIPSAIL_FAR_END: return "far end ends the call";
    case WHIPSAIL_ACTIVATION_REQUEST: return "user asks another panel to forward";
    case WHIPSAIL_DEACTIVATION_REQUEST: return "user asks another panel to forward no more";
    case WHIPSAIL_INTERROGATION_REQUEST: return "user asks where another panel forwards to";
    case WHIPSAIL_CHECK_REQUEST: return "user asks whether another panel may be diverted to";
    case WHIPSAIL_ACTIVATION_INVOKE: return "activateDiversionQ invoke received";
    case WHIPSAIL_DEACTIVATION_INVOKE: return "deactivateDiversionQ invoke received";
    case WHIPSAIL_INTERROGATION_INVOKE: return "interrogateDiversionQ invoke received";
    case WHIPSAIL_CHECK_INVOKE: return "checkRestriction invoke received";
    case WHIPSAIL_ACTIVATION_RESULT: return "activateDiversionQ result received";
    case WHIPSAIL_DEACTIVATION_RESULT: return "deactivateDiversionQ result received";
    case WHIPSAIL_INTERROGATION_RESULT: return "interrogateDiversionQ result received";
    case WHIPSAIL_CHECK_RESULT: return "checkRestriction result received";
    case WHIPSAIL_ACTIVATION_ERROR: return "activateDiversionQ error or reject received";
    case WHIPSAIL_DEACTIVATION_ERROR: return "deactivateDiversionQ error or reject received";
    case WHIPSAIL_INTERROGATION_ERROR: return "interrogateDiversionQ error or reject received";
    case WHIPSAIL_CHECK_ERROR: return "checkRestriction error or reject received";
    default: return "an event not known here";
    }
}

/* What to send: of whipsail_message.letter. */
static inline const char *whipsail_letter_text(unsigned letter) {
    switch (letter) {
    case WHIPSAIL_NO_MESSAGE: return "no message";
    case 'A': return "ALERTING";
    case 'C': return "CONNECT";
    case 'D': return "CONNECT with divertingLegInformation3";
    case 'I': return "callRerouting invoke";
    case 'R': return "callRerouting result";
    case 'E': return "callRerouting error";
    case 'X': return "RELEASE COMPLETE";
    case 'S': return "SETUP with divertingLegInformation2";
    case 'F': return "cfnrDivertedLegFailed";
    case 'a': return "activateDiversionQ invoke";
    case 'd': return "deactivateDiversionQ invoke";
    case 'i': return "interrogateDiversionQ invoke";
    case 'c': return "checkRestriction invoke";
    case 'r': return "result to another panel";
    case 'e': return "error to another panel";
    default: return "a message of a later archive, not known here";
    }
}

/* Why a call is diverted: of whipsail_answer.notice, whipsail_message.reason. */
static inline const char *whipsail_reason_text(unsigned reason) {
    switch (reason) {
    case WHIPSAIL_UNKNOWN: return "reason not told";
    case WHIPSAIL_CFU: return "forwarding unconditional";
    case WHIPSAIL_CFB: return "forwarding on busy";
    case WHIPSAIL_CFNR: return "forwarding on no reply";
    default: return "a reason not known here";
    }
}

/* How a rehearsed call ends: of whipsail_rehearsed.ending. */
static inline const char *whipsail_ending_text(unsigned ending) {
    switch (ending) {
    case WHIPSAIL_RINGS: return "rings";
    case WHIPSAIL_BUSY: return "busy";
    case WHIPSAIL_AT_LIMIT: return "limit";
    default: return "an ending not known here";
    }
}

#endif
