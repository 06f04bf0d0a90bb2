//! A cluster: kept seats do only what the calls say, open seats may say anything.

use crate::book::{BlockId, Book, Letter, Proposal};
use crate::refusal::Refusal;
use crate::seats::{check_view, CountRule, RoundRobin, Seat, SeatSet, View};

#[derive(Clone, Copy, Debug)]
pub enum Call {
    Fast(Proposal),
    Slow(Proposal),
    Show { seat: Seat, block: u32 },
    Expire { seat: Seat, view: View },
    Vote { seat: Seat, block: u32 },
    Letter { seat: Seat, view: View, block: u32 },
}

#[derive(Clone, Copy, Debug)]
pub struct KeptSeat {
    pub view: View,
    pub last_vote: BlockId,
    pub tip: BlockId,
}

pub struct Cluster {
    pub book: Book,
    /// Nothing for an open seat.
    seats: Vec<Option<KeptSeat>>,
}

impl Cluster {
    pub fn open(rule: CountRule, rotation: RoundRobin, open: SeatSet) -> Result<Cluster, Refusal> {
        if rule.seats() != rotation.seats() {
            return Err(Refusal::SeatsDiffer);
        }
        if !open.is_subset(rule.all()) {
            return Err(Refusal::SetOutOfRange);
        }
        let fresh = KeptSeat { view: 0, last_vote: BlockId::GENESIS, tip: BlockId::GENESIS };
        let seats = rule.all().iter().map(|seat| (!open.contains(seat)).then_some(fresh));
        Ok(Cluster { book: Book::new(rule, rotation, open)?, seats: seats.collect() })
    }

    pub fn seats(&self) -> usize {
        self.seats.len()
    }

    pub fn call(&mut self, call: Call) -> Result<u32, Refusal> {
        match call {
            Call::Fast(proposal) => self.book.fast(&proposal).map(BlockId::number),
            Call::Slow(proposal) => self.book.slow(&proposal).map(BlockId::number),
            Call::Show { seat, block } => self.show(seat, block).map(u32::from),
            Call::Expire { seat, view } => self.expire(seat, view).map(BlockId::number),
            Call::Vote { seat, block } => self.vote(seat, block),
            Call::Letter { seat, view, block } => self.letter(seat, view, block),
        }
    }

    /// The seat, or nothing if it is open.
    pub fn seat(&self, seat: Seat) -> Result<Option<KeptSeat>, Refusal> {
        self.seats.get(usize::from(seat)).copied().ok_or(Refusal::NoSuchSeat)
    }

    /// Whether the seat votes for the block.
    fn show(&mut self, seat: Seat, block: u32) -> Result<bool, Refusal> {
        let kept = self.seat(seat)?;
        let block = self.book.find(block)?;
        let mut kept = kept.ok_or(Refusal::SeatIsOpen)?;

        kept.tip = self.next_tip(kept.tip, self.book[block].commit_point)?;
        let view = self.book[block].view;
        let votes = view >= kept.view && view > self.book[kept.last_vote].view;
        if votes {
            kept.view = view;
            kept.last_vote = block;
            self.book.add_vote(seat, block);
        }
        self.seats[usize::from(seat)] = Some(kept);
        Ok(votes)
    }

    fn next_tip(&self, tip: BlockId, commit_point: BlockId) -> Result<BlockId, Refusal> {
        if self.book.stands_on(commit_point, tip) {
            return Ok(commit_point);
        }
        if self.book.stands_on(tip, commit_point) {
            return Ok(tip);
        }
        Err(Refusal::CommitsConflict)
    }

    /// The seat's last vote.
    fn expire(&mut self, seat: Seat, view: View) -> Result<BlockId, Refusal> {
        let kept = self.seat(seat)?;
        let view = check_view(view)?;
        let mut kept = kept.ok_or(Refusal::SeatIsOpen)?;
        if view <= kept.view {
            return Err(Refusal::ViewNotAbove);
        }
        self.book.add_letter(Letter { seat, view, block: kept.last_vote })?;
        kept.view = view;
        self.seats[usize::from(seat)] = Some(kept);
        Ok(kept.last_vote)
    }

    /// The number of voters.
    fn vote(&mut self, seat: Seat, block: u32) -> Result<u32, Refusal> {
        let kept = self.seat(seat)?;
        let block = self.book.find(block)?;
        if kept.is_some() {
            return Err(Refusal::SeatIsKept);
        }
        Ok(self.book.add_vote(seat, block))
    }

    /// The number of letters.
    fn letter(&mut self, seat: Seat, view: View, block: u32) -> Result<u32, Refusal> {
        let kept = self.seat(seat)?;
        let block = self.book.find(block)?;
        let view = check_view(view)?;
        if kept.is_some() {
            return Err(Refusal::SeatIsKept);
        }
        self.book.add_letter(Letter { seat, view, block })
    }
}
