//! The page's numbers by name.

/// Directions of a record.
pub const FREE: u8 = 0;
pub const OUTGOING: u8 = 1;
pub const INCOMING: u8 = 2;

/// Basic states; a free record has none (0).
pub const PROCEEDING: u8 = 1;
/// Delivered of an outgoing call, Received of an incoming one.
pub const DELIVERED: u8 = 2;
pub const RECEIVED: u8 = 2;
pub const ACTIVE: u8 = 3;

/// Service states: Idle, or the one other state of CDO, CDR and CDS.
pub const IDLE: u8 = 0;
pub const DIVERT: u8 = 1;
pub const INVOKED: u8 = 1;
pub const REQUESTED: u8 = 1;
/// Of CDA, CDD, CDI and CDS-Act (02, Seven).
pub const WAIT: u8 = 1;

/// CDF states.
pub const CDF_NONE: u8 = 0;
pub const CDF_WAIT: u8 = 1;
pub const CDF_DONE: u8 = 2;

/// Reasons.
pub const UNKNOWN: u8 = 0;
pub const CFU: u8 = 1;
pub const CFB: u8 = 2;
pub const CFNR: u8 = 3;

/// Options; a smaller one is stricter.
pub const NO_NOTIFICATION: u8 = 0;
pub const WITHOUT_NUMBER: u8 = 1;
pub const WITH_NUMBER: u8 = 2;

/// Event kinds.
pub const OPEN_OUTGOING: u8 = 1;
pub const OPEN_INCOMING: u8 = 2;
pub const OPEN_DIVERTED: u8 = 3;
pub const USER_ALERTED: u8 = 4;
pub const USER_ANSWERS: u8 = 5;
pub const USER_DIVERTS: u8 = 6;
pub const RESULT: u8 = 7;
pub const ERROR: u8 = 8;
pub const LEG_FAILED: u8 = 9;
pub const CLOCK: u8 = 10;
pub const OWN_END: u8 = 11;
pub const REROUTE: u8 = 12;
pub const DLI1: u8 = 13;
pub const MESSAGE: u8 = 14;
pub const FAR_END: u8 = 15;
/// "16 to 19 our user's request" (02, Seven)
pub const ACTIVATION_REQUEST: u8 = 16;
pub const DEACTIVATION_REQUEST: u8 = 17;
pub const INTERROGATION_REQUEST: u8 = 18;
pub const CHECK_REQUEST: u8 = 19;
/// "20 to 23 the invoke received"
pub const ACTIVATION_INVOKE: u8 = 20;
pub const DEACTIVATION_INVOKE: u8 = 21;
pub const INTERROGATION_INVOKE: u8 = 22;
pub const CHECK_INVOKE: u8 = 23;
/// "24 to 27 a result"
pub const ACTIVATION_RESULT: u8 = 24;
pub const DEACTIVATION_RESULT: u8 = 25;
pub const INTERROGATION_RESULT: u8 = 26;
pub const CHECK_RESULT: u8 = 27;
/// "28 to 31 an error or reject"
pub const ACTIVATION_ERROR: u8 = 28;
pub const DEACTIVATION_ERROR: u8 = 29;
pub const INTERROGATION_ERROR: u8 = 30;
pub const CHECK_ERROR: u8 = 31;

/// Sorts of Seven's kinds, in their order.
pub const ACTIVATION: usize = 0;
pub const DEACTIVATION: usize = 1;
pub const INTERROGATION: usize = 2;
pub const CHECK: usize = 3;
pub const SORTS: usize = 4;

/// Messages of kind 14.
pub const FACILITY: u8 = 1;
pub const ALERTING: u8 = 2;
pub const CONNECT: u8 = 3;
pub const RELEASE_COMPLETE: u8 = 4;

/// Flags of kind 14.
pub const NO_DLI3: u8 = 0;
pub const DLI3_ALLOWED: u8 = 1;
pub const DLI3_FORBIDDEN: u8 = 2;

/// "1 to 64 call records".
pub const MOST_RECORDS: usize = 64;
/// "its diversion limit (1 to 15)"; also the highest counter.
pub const MOST_DIVERSIONS: u8 = 15;
/// "The short form of a fresh station shall use limit 5." (02, Four)
pub const SHORT_LIMIT: u8 = 5;
/// T1: "time minus start at least 10,000".
pub const T1: u64 = 10_000;
/// "timers T2 of 30,000 ms and T3, T4, T5 of 15,000 ms", by sort (02, Seven)
pub const TIMERS: [u64; SORTS] = [30_000, 15_000, 15_000, 15_000];
