/* What a host keeps: the station and its table of call records. A part of
 * whipsail.h, which includes it. */
#ifndef WHIPSAIL_KEPT_H
#define WHIPSAIL_KEPT_H

#include <stdint.h>

/* Most records of a table, and most DLI1s that wait on one call. */
#define WHIPSAIL_RECORDS 64
#define WHIPSAIL_WAITING 15

/* The format of what is kept. A host that keeps station and table over a restart
 * keeps this number beside them; where another stands there, it does not lend
 * them, but starts again with zeroed records and a fresh station. It moves
 * whenever the layout of whipsail_call or whipsail_station changes, or what their
 * bytes mean, or which of them are sound; the archive's own is handed back by
 * whipsail_layout_linked().
 *
 * What was kept under 2 may also be converted: the records as they are, and of the
 * station `last`, `next` and `limit` as they are, `remote.pending` and `remote.kept` all
 * 0, and the two marks as the host chooses. (A station of 1 and 2 had 16 bytes: last 0,
 * next 8, limit 10.)
 *
 * So may what was kept under 1: the station as that of 2, and of each record every field
 * into that of its name, `waiting` into `waiting.first`, the rest 0. (A record of 1 had
 * 40 bytes: eight codes as now, party 8, waiting 10, history 14, own 20, diverting 22,
 * original 24, identifier 26, reason 28, start 32.) What was kept before there was a
 * number has the layout of 1, but may not be sound: whipsail_station says when. */
#define WHIPSAIL_FORMAT 3

/* A divertingLegInformation1: reason, option and nominated number. */
typedef struct whipsail_dli1 {
    uint8_t reason;
    uint8_t option;
    uint16_t number;
} whipsail_dli1;

/* The DLI1s that wait in Invoked, in the order in which they came: the first of the
 * CFNR that opened leg 2, and behind it one for each CFU or CFB that was accepted on
 * leg 2. The party on leg 2 is the number of the last: later[count - 1], or first
 * where count is 0.
 *
 * While they wait the caller is told of none. Where leg 2 becomes leg 1, all reach the
 * history in order, and a notice is that of the first; where leg 2 is gone or the call
 * ends, they are dropped. */
typedef struct whipsail_waits {
    whipsail_dli1 first;                       /* CFNR */
    uint8_t count;                             /* how many wait behind it, 0 to 14 */
    whipsail_dli1 later[WHIPSAIL_WAITING - 1]; /* CFU or CFB; from later[count] on all 0 */
} whipsail_waits;

/* What the caller was told so far; all 0 before the first DLI1 of the call. */
typedef struct whipsail_history {
    uint8_t seen;      /* mark: a DLI1 was seen */
    uint8_t strictest; /* option */
    uint8_t forbidden; /* mark: a forbidden DLI3 was seen */
    uint8_t shown;     /* mark: a number was shown since the last cfnr DLI1 */
    uint16_t nominated;
} whipsail_history;

/* One call record; all 0 is a free one. The engine alone writes it. */
typedef struct whipsail_call {
    uint8_t direction; /* 0 free, 1 outgoing, 2 incoming */
    uint8_t basic;     /* 1 Proceeding, 2 Delivered or Received, 3 Active */
    uint8_t cdo;       /* 0 Idle, 1 Divert */
    uint8_t cdr;       /* 0 Idle, 1 Invoked: there is a leg 2 */
    uint8_t cds;       /* 0 Idle, 1 Requested */
    uint8_t cdf;       /* 0 none, 1 Wait, 2 done */
    uint8_t granted;   /* mark */
    uint8_t counter;
    uint64_t start;           /* T1 start of the open request of an incoming call */
    uint16_t party;           /* leg 1 of an outgoing call */
    whipsail_history history; /* of an outgoing call */
    uint16_t own;             /* of an incoming call, as the next four */
    uint16_t diverting;
    uint16_t original;
    uint16_t identifier;    /* of the open request, not 0 */
    uint8_t reason;         /* of the open request or the grant */
    whipsail_waits waiting; /* of an outgoing call, in Invoked */
} whipsail_call;

/* A request of ours to another panel that is pending; all 0 where none waits. */
typedef struct whipsail_pending {
    uint64_t start;      /* when it was sent, not after the last time; its timer's length later a CLOCK ends it */
    uint16_t identifier; /* not 0, and of no other open request */
    uint8_t wait;        /* 0 Idle, 1 Wait */
} whipsail_pending;

/* One of each sort. */
typedef struct whipsail_pendings {
    whipsail_pending activation;    /* T2 */
    whipsail_pending deactivation;  /* T3 */
    whipsail_pending interrogation; /* T4 */
    whipsail_pending check;         /* T5 */
} whipsail_pendings;

/* For each type of forward the destination that other panels have set here, or 0: that
 * of the last activation that was accepted, unless a deactivation came after it. Any
 * numbers are sound. They divert no call by themselves: a host that follows them diverts
 * each call by DIVERT. */
typedef struct whipsail_kept {
    uint16_t cfu;
    uint16_t cfb;
    uint16_t cfnr;
} whipsail_kept;

/* Forwards that are set from another panel. The marks are the host's: it may set them
 * between two events. */
typedef struct whipsail_remote {
    whipsail_pendings pending;
    whipsail_kept kept;
    uint8_t enabled; /* mark: remote activation is enabled */
    uint8_t allowed; /* mark: diversion to us is allowed */
} whipsail_remote;

/* May be kept with its table over a restart. It is sound where the limit is 1 to 15,
 * `next` not 0, each mark and each `wait` 0 or 1; a pending request that waits has an
 * identifier that is not 0 and that no other open request has, in the station or the
 * table, and no start after `last`; one that does not wait is all 0.
 *
 * Earlier archives gave identifier 0 after 65535: what they left, without a format
 * number, may have next 0, or an open request with identifier 0, and is then refused
 * with 1 at every event. Start again with zeroed records and a fresh station; or, where
 * next is 0 and no request is open with 0, set next to 1; or, before the archive is
 * changed, let a request with 0 end: by its answer, by a clock event 10,000 ms after
 * it, or with its call. */
typedef struct whipsail_station {
    uint64_t last;          /* time of the last done event */
    uint16_t next;          /* next identifier, not 0 */
    uint8_t limit;          /* 1 to 15 */
    whipsail_remote remote; /* forwards set from another panel */
} whipsail_station;

#endif
