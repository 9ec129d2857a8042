//! Numbers in words, where no enum holds them all. `whipsail_text.h` has the same
//! words for C.

/// A kind of event.
pub const fn kind(number: u8) -> &'static str {
    match number {
        1 => "outgoing call opened",
        2 => "incoming call opened",
        3 => "diverted incoming call opened",
        4 => "user alerted",
        5 => "user answers",
        6 => "user diverts",
        7 => "callRerouting result received",
        8 => "callRerouting error or reject received",
        9 => "cfnrDivertedLegFailed received",
        10 => "time has passed",
        11 => "own side ends the call",
        12 => "callRerouting invoke received",
        13 => "divertingLegInformation1 received",
        14 => "message received",
        15 => "far end ends the call",
        16 => "user asks another panel to forward",
        17 => "user asks another panel to forward no more",
        18 => "user asks where another panel forwards to",
        19 => "user asks whether another panel may be diverted to",
        20 => "activateDiversionQ invoke received",
        21 => "deactivateDiversionQ invoke received",
        22 => "interrogateDiversionQ invoke received",
        23 => "checkRestriction invoke received",
        24 => "activateDiversionQ result received",
        25 => "deactivateDiversionQ result received",
        26 => "interrogateDiversionQ result received",
        27 => "checkRestriction result received",
        28 => "activateDiversionQ error or reject received",
        29 => "deactivateDiversionQ error or reject received",
        30 => "interrogateDiversionQ error or reject received",
        31 => "checkRestriction error or reject received",
        _ => "an event not known here",
    }
}

/// The letter of a message.
pub const fn letter(letter: u8) -> &'static str {
    match letter {
        0 => "no message",
        b'A' => "ALERTING",
        b'C' => "CONNECT",
        b'D' => "CONNECT with divertingLegInformation3",
        b'I' => "callRerouting invoke",
        b'R' => "callRerouting result",
        b'E' => "callRerouting error",
        b'X' => "RELEASE COMPLETE",
        b'S' => "SETUP with divertingLegInformation2",
        b'F' => "cfnrDivertedLegFailed",
        b'a' => "activateDiversionQ invoke",
        b'd' => "deactivateDiversionQ invoke",
        b'i' => "interrogateDiversionQ invoke",
        b'c' => "checkRestriction invoke",
        b'r' => "result to another panel",
        b'e' => "error to another panel",
        _ => "a message of a later archive, not known here",
    }
}
