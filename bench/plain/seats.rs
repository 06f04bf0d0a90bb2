//! Seats, sets of seats, the count rule and the round robin.

use crate::refusal::Refusal;

pub const MAX_SEATS: usize = 64;
pub const MAX_FAULTS: u8 = 21;
pub const MAX_VIEW: u32 = 1_000_000;

pub type Seat = u8;
pub type View = u32;

/// The bit worth 2^s stands for seat s.
#[derive(Clone, Copy, Debug, Default, PartialEq, Eq)]
pub struct SeatSet(pub u64);

impl SeatSet {
    /// The seats 0 to n - 1.
    pub fn first(n: usize) -> SeatSet {
        match n {
            0 => SeatSet(0),
            n => SeatSet(u64::MAX >> (MAX_SEATS - n)),
        }
    }

    pub fn contains(self, seat: Seat) -> bool {
        usize::from(seat) < MAX_SEATS && self.0 >> seat & 1 == 1
    }

    pub fn insert(&mut self, seat: Seat) {
        if usize::from(seat) < MAX_SEATS {
            self.0 |= 1 << seat;
        }
    }

    pub fn len(self) -> u32 {
        self.0.count_ones()
    }

    pub fn is_subset(self, other: SeatSet) -> bool {
        self.0 & !other.0 == 0
    }

    /// The seats of the set, lowest first.
    pub fn iter(self) -> impl Iterator<Item = Seat> {
        let mut rest = self.0;
        std::iter::from_fn(move || {
            if rest == 0 {
                return None;
            }
            let seat = rest.trailing_zeros() as Seat;
            rest &= rest - 1;
            Some(seat)
        })
    }
}

pub fn check_view(view: View) -> Result<View, Refusal> {
    match view {
        1..=MAX_VIEW => Ok(view),
        _ => Err(Refusal::ViewOutOfRange),
    }
}

/// Of 3 f + 1 seats, 2 f + 1 decide.
#[derive(Clone, Copy, Debug)]
pub struct CountRule {
    faults: u8,
}

impl CountRule {
    pub fn new(faults: u8) -> Result<CountRule, Refusal> {
        if faults > MAX_FAULTS {
            return Err(Refusal::TooManyFaults);
        }
        Ok(CountRule { faults })
    }

    pub fn seats(self) -> usize {
        3 * usize::from(self.faults) + 1
    }

    pub fn all(self) -> SeatSet {
        SeatSet::first(self.seats())
    }

    pub fn least_quorum(self) -> u32 {
        2 * u32::from(self.faults) + 1
    }

    pub fn is_quorum(self, set: SeatSet) -> bool {
        set.is_subset(self.all()) && set.len() >= self.least_quorum()
    }
}

/// View v is led by seat (first + v - 1) mod n, where first is 1 mod n.
#[derive(Clone, Copy, Debug)]
pub struct RoundRobin {
    seats: usize,
}

impl RoundRobin {
    pub fn new(seats: usize) -> Result<RoundRobin, Refusal> {
        if !(1..=MAX_SEATS).contains(&seats) {
            return Err(Refusal::BadRotation);
        }
        Ok(RoundRobin { seats })
    }

    pub fn seats(self) -> usize {
        self.seats
    }

    pub fn leader(self, view: View) -> Seat {
        (view as usize % self.seats) as Seat
    }
}
