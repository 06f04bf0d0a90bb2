//! Records, and a rehearsal of them.

use crate::book::Proposal;
use crate::cluster::{Call, Cluster};
use crate::refusal::Refusal;
use crate::seats::{CountRule, RoundRobin, SeatSet};

pub const RECORD_BYTES: usize = 32;
pub const MAX_RECORDS: usize = 4096;

const SPARE: [usize; 6] = [2, 3, 12, 13, 14, 15];

#[derive(Clone, Copy, Debug)]
pub enum Record {
    Open { faults: u8, open: SeatSet },
    Call(Call),
}

impl Record {
    pub fn read(bytes: &[u8]) -> Result<Record, Refusal> {
        let bytes: &[u8; RECORD_BYTES] = bytes.try_into().map_err(|_| Refusal::CutOff)?;
        let seat = bytes[1];
        let view = low_first(&bytes[4..8]) as u32;
        let block = low_first(&bytes[8..12]) as u32;
        let payload = low_first(&bytes[16..24]);
        let set = SeatSet(low_first(&bytes[24..32]));
        let proposal = Proposal { view, parent: block, payload, heard: set };

        let record = match bytes[0] {
            b'O' => Record::Open { faults: seat, open: set },
            b'F' => Record::Call(Call::Fast(proposal)),
            b'S' => Record::Call(Call::Slow(proposal)),
            b'H' => Record::Call(Call::Show { seat, block }),
            b'E' => Record::Call(Call::Expire { seat, view }),
            b'V' => Record::Call(Call::Vote { seat, block }),
            b'L' => Record::Call(Call::Letter { seat, view, block }),
            _ => return Err(Refusal::UnknownLetter),
        };
        if SPARE.iter().any(|&place| bytes[place] != 0) {
            return Err(Refusal::SpareNotZero);
        }
        Ok(record)
    }
}

/// A number with its lowest byte first.
fn low_first(bytes: &[u8]) -> u64 {
    bytes.iter().rev().fold(0, |number, &byte| number << 8 | u64::from(byte))
}

/// The first record opens the cluster; later ones call it.
#[derive(Default)]
pub struct Rehearsal {
    started: bool,
    cluster: Option<Cluster>,
}

impl Rehearsal {
    pub fn play(&mut self, bytes: &[u8]) -> Result<u32, Refusal> {
        let first = !std::mem::replace(&mut self.started, true);
        match (Record::read(bytes)?, &mut self.cluster) {
            (Record::Open { faults, open }, None) if first => self.open(faults, open),
            (Record::Call(call), Some(cluster)) => cluster.call(call),
            _ => Err(Refusal::OutOfPlace),
        }
    }

    #[allow(dead_code)] // For the maker of streams.
    pub fn cluster(&self) -> Option<&Cluster> {
        self.cluster.as_ref()
    }

    /// The number of seats.
    fn open(&mut self, faults: u8, open: SeatSet) -> Result<u32, Refusal> {
        let rule = CountRule::new(faults)?;
        let rotation = RoundRobin::new(rule.seats())?;
        let cluster = self.cluster.insert(Cluster::open(rule, rotation, open)?);
        Ok(cluster.seats() as u32)
    }
}
