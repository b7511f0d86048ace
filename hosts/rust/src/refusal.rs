//! The numbered refusals.

use crate::sys::Ack;
use std::fmt;

/// Why a call refused; its number is the C header's and the papers'.
#[derive(Clone, Copy, Debug, PartialEq, Eq)]
#[repr(u8)]
pub enum Refusal {
    /// Under 20 bytes, or a header of another length.
    Short = 1,
    /// The payload runs past the datagram's end.
    PayloadMissing = 2,
    /// 1 to 19 bytes after the last packet.
    Tail = 3,
    /// A packet type above 6.
    UnknownType = 4,
    /// A number below the first one expected.
    Below = 5,
    /// A number too far ahead.
    Beyond = 6,
    /// A number that is held.
    AlreadyHeld = 7,
    /// Nothing to give.
    Empty = 8,
    /// No packet number left.
    Exhausted = 9,
    /// Lent memory too small.
    BufferShort = 10,
    /// A field, a payload or a datagram too large.
    OutOfRange = 11,
    /// A state that no call leaves. What this crate's types own never is one; `used` above an output's length is, and so are packets
    /// kept whose numbers are not below the next one.
    Malformed = 12,
    /// The start is set while packets are held.
    PacketsHeld = 13,
    /// A round trip longer than a minute.
    SampleTooLong = 14,
    /// All 64 places of the packets kept are taken.
    NoPlace = 15,
}

impl Refusal {
    const ALL: [Refusal; 15] = [
        Refusal::Short,
        Refusal::PayloadMissing,
        Refusal::Tail,
        Refusal::UnknownType,
        Refusal::Below,
        Refusal::Beyond,
        Refusal::AlreadyHeld,
        Refusal::Empty,
        Refusal::Exhausted,
        Refusal::BufferShort,
        Refusal::OutOfRange,
        Refusal::Malformed,
        Refusal::PacketsHeld,
        Refusal::SampleTooLong,
        Refusal::NoPlace,
    ];

    /// Its number, 1 to 15.
    pub fn number(self) -> u8 {
        self as u8
    }

    /// The refusal of a number that the library answered; 0 is none.
    pub(crate) fn of(number: u8) -> Option<Refusal> {
        Self::ALL.get(usize::from(number).checked_sub(1)?).copied()
    }

    /// `Ok` of a value where the library answered 0.
    pub(crate) fn or<T>(number: u8, value: T) -> Result<T, Refusal> {
        match Self::of(number) {
            None => Ok(value),
            Some(refusal) => Err(refusal),
        }
    }
}

impl fmt::Display for Refusal {
    fn fmt(&self, f: &mut fmt::Formatter<'_>) -> fmt::Result {
        write!(f, "refusal {}: {:?}", self.number(), self)
    }
}

impl std::error::Error for Refusal {}

/// A refusal while a datagram is walked, and the byte at which the walk stopped (0 for refusals 10 and above).
#[derive(Clone, Copy, Debug, PartialEq, Eq)]
pub struct RefusedAt {
    pub refusal: Refusal,
    pub cursor: usize,
}

impl fmt::Display for RefusedAt {
    fn fmt(&self, f: &mut fmt::Formatter<'_>) -> fmt::Result {
        write!(f, "{} at byte {}", self.refusal, self.cursor)
    }
}

impl std::error::Error for RefusedAt {}

/// A refusal of a packet, and the ack that goes with it. There is one with 5 alone: of the packet's number, count 1, to be queued like a
/// read's, since the ack of that read may be lost.
#[derive(Clone, Copy, Debug, PartialEq, Eq)]
pub struct NotAccepted {
    pub refusal: Refusal,
    pub ack: Option<Ack>,
}

impl fmt::Display for NotAccepted {
    fn fmt(&self, f: &mut fmt::Formatter<'_>) -> fmt::Result {
        self.refusal.fmt(f)
    }
}

impl std::error::Error for NotAccepted {}

#[cfg(test)]
mod tests {
    use super::*;

    #[test]
    fn numbers_go_there_and_back() {
        for number in 1..=15 {
            assert_eq!(Refusal::of(number).map(Refusal::number), Some(number));
        }
        assert_eq!((Refusal::of(0), Refusal::of(16)), (None, None));
        assert_eq!(Refusal::or(10, ()), Err(Refusal::BufferShort));
    }
}
