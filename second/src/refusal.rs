//! The refusals, with the paper's numbers.

/// A refusal, in the order of the paper's table; that of a text has its place in the line.
#[derive(Clone, Copy, Debug, PartialEq, Eq)]
pub enum Refusal {
    Impossible,
    LineTooLong,
    NotALine,
    BadText { place: usize },
    NoPacketOpen,
    BadTotal,
    BodyTooLong,
    TooManyBytes,
    CrcDiffers,
    NotSuchAPacket,
    ReplyRoom,
    CannotSend,
    NoSuchFrame,
}

impl Refusal {
    /// The refusal's number in the paper's table.
    pub fn number(self) -> u32 {
        match self {
            Refusal::Impossible => 1,
            Refusal::LineTooLong => 2,
            Refusal::NotALine => 3,
            Refusal::BadText { .. } => 4,
            Refusal::NoPacketOpen => 5,
            Refusal::BadTotal => 6,
            Refusal::BodyTooLong => 7,
            Refusal::TooManyBytes => 8,
            Refusal::CrcDiffers => 9,
            Refusal::NotSuchAPacket => 10,
            Refusal::ReplyRoom => 11,
            Refusal::CannotSend => 12,
            Refusal::NoSuchFrame => 13,
        }
    }

    /// The place in the line that comes with refusal 4, and with no other.
    pub fn place(self) -> Option<u32> {
        match self {
            Refusal::BadText { place } => Some(place as u32),
            _ => None,
        }
    }
}
