//! Why a record is refused.

#[derive(Clone, Copy, Debug, PartialEq, Eq)]
#[repr(u8)]
pub enum Refusal {
    SeatsDiffer = 1,
    SetOutOfRange = 2,
    NoSuchSeat = 3,
    NoSuchBlock = 4,
    ViewOutOfRange = 5,
    SeatIsKept = 6,
    SeatIsOpen = 7,
    ViewNotAbove = 8,
    BlockNotEarlier = 9,
    LettersFull = 10,
    BlocksFull = 11,
    ViewTaken = 12,
    NoQuorum = 13,
    NotBacked = 14,
    BadParent = 15,
    CommitsConflict = 16,
    TooManyFaults = 17,
    BadRotation = 19,
    CutOff = 20,
    UnknownLetter = 21,
    SpareNotZero = 22,
    OutOfPlace = 23,
    WantOfMemory = 255,
}

impl Refusal {
    #[allow(dead_code)] // The maker of streams prints none.
    pub fn number(self) -> u8 {
        self as u8
    }
}
