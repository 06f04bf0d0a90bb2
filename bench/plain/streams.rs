//! Makes streams of records for `rehearse`.
//!
//!     streams SEED KIND              one stream, to standard output
//!     streams SEED KIND COUNT DIR    the streams of COUNT seeds from SEED on, each to DIR/SEED.KIND
//!
//! KIND is one of `KINDS`, or `all` for each of them in turn by seed.

mod book;
mod cluster;
mod record;
mod refusal;
mod seats;

use std::io::{self, Write};
use std::path::Path;
use std::process::ExitCode;

use book::{BlockId, Book, Proposal, MAX_LETTERS};
use cluster::{Call, Cluster};
use record::{Rehearsal, MAX_RECORDS, RECORD_BYTES};
use seats::{Seat, SeatSet, View, MAX_FAULTS, MAX_VIEW};

const KINDS: [&str; 11] =
    ["mixed", "steady", "hollow", "twins", "forks", "branches", "full", "wide", "wild", "damaged", "brief"];

/// A xorshift generator.
struct Random(u64);

impl Random {
    fn new(seed: u64, kind: u64) -> Random {
        let mut random = Random(seed.wrapping_mul(0x9e37_79b9_7f4a_7c15) ^ (kind << 56) | 1);
        for _ in 0..8 {
            random.next();
        }
        random
    }

    fn next(&mut self) -> u64 {
        self.0 ^= self.0 >> 12;
        self.0 ^= self.0 << 25;
        self.0 ^= self.0 >> 27;
        self.0.wrapping_mul(0x2545_f491_4f6c_dd1d)
    }

    /// From 0 to n - 1; 0 for n = 0.
    fn below(&mut self, n: u64) -> u64 {
        (self.next() >> 11) % n.max(1)
    }

    fn within(&mut self, low: u64, high: u64) -> u64 {
        low + self.below(high - low + 1)
    }

    fn percent(&mut self, chance: u64) -> bool {
        self.below(100) < chance
    }

    fn either<T>(&mut self, chance: u64, yes: T, no: T) -> T {
        if self.percent(chance) {
            return yes;
        }
        no
    }

    fn one_of<T: Copy, const N: usize>(&mut self, things: [T; N]) -> T {
        things[self.below(N as u64) as usize]
    }

    /// Nothing of an empty row.
    fn pick<T: Copy>(&mut self, things: &[T]) -> Option<T> {
        things.get(self.below(things.len() as u64) as usize).copied()
    }

    fn shuffle<T>(&mut self, things: &mut [T]) {
        for i in (1..things.len()).rev() {
            things.swap(i, self.below(i as u64 + 1) as usize);
        }
    }
}

#[derive(Clone, Copy)]
enum Opening {
    Nobody,
    Tolerated,
    /// All but a few.
    Most,
    Any,
}

/// How a run goes. The chances are of a hundred.
#[derive(Clone, Copy)]
struct Profile {
    faults: (u64, u64),
    opening: Opening,
    records: (u64, u64),
    /// A view fails, and its seats leave by letters.
    fail: u64,
    /// A seat is not shown a block, or an open one does not vote for it.
    hide: u64,
    /// A view has a chance of its own for that.
    swing: u64,
    /// An open leader makes another block of its view.
    twins: u64,
    /// A call is sent in a bent form first.
    bend: u64,
    /// A view is left out.
    skip: u64,
    /// Odd shows, votes and letters after each view, at most.
    odd: u64,
    /// Branches that grow side by side, or 0.
    branches: u64,
    /// A slow block is tried on another parent first.
    other: u64,
    /// A record is damaged.
    damage: u64,
}

const STEADY: Profile = Profile {
    faults: (0, 4),
    opening: Opening::Tolerated,
    records: (200, 2400),
    fail: 10,
    hide: 5,
    swing: 5,
    twins: 5,
    bend: 5,
    skip: 3,
    odd: 2,
    branches: 0,
    other: 15,
    damage: 0,
};

impl Profile {
    fn of(kind: &str, random: &mut Random) -> Profile {
        match kind {
            "hollow" => Profile {
                faults: (1, 2),
                opening: random.one_of([Opening::Tolerated, Opening::Most]),
                fail: 92,
                hide: random.one_of([75, 88, 97]),
                twins: 15,
                bend: 2,
                ..STEADY
            },
            "twins" => Profile {
                faults: (1, 5),
                records: (200, 1200),
                fail: 45,
                hide: 25,
                swing: 60,
                twins: 70,
                odd: 6,
                other: 40,
                ..STEADY
            },
            "forks" => Profile {
                faults: (1, random.one_of([2, 4, 7])),
                opening: Opening::Most,
                records: (300, 2000),
                fail: random.one_of([15, 35, 60]),
                hide: 15,
                swing: 60,
                twins: random.one_of([60, 75]),
                bend: 1,
                odd: 14,
                other: 40,
                ..STEADY
            },
            "branches" => Profile {
                faults: (1, 3),
                opening: Opening::Most,
                records: (400, 2500),
                hide: 8,
                bend: 1,
                branches: random.within(2, 4),
                ..STEADY
            },
            "full" => Profile {
                faults: (0, 2),
                opening: random.one_of([Opening::Tolerated, Opening::Any]),
                records: (3000, 4200),
                fail: 50,
                hide: 10,
                twins: 40,
                ..STEADY
            },
            "wide" => Profile {
                faults: (5, 21),
                opening: random.one_of([Opening::Tolerated, Opening::Any]),
                records: (500, 3000),
                fail: 25,
                hide: 10,
                twins: 40,
                ..STEADY
            },
            "wild" => Profile {
                faults: (0, 2),
                opening: Opening::Any,
                records: (50, 800),
                fail: 40,
                hide: 20,
                twins: 40,
                bend: 60,
                skip: 10,
                odd: 10,
                ..STEADY
            },
            "damaged" => Profile {
                faults: (0, 3),
                opening: Opening::Any,
                records: (1, 300),
                damage: random.within(1, 30),
                ..STEADY
            },
            "brief" => Profile { faults: (0, 25), opening: Opening::Any, records: (0, 12), ..STEADY },
            "mixed" => Profile {
                faults: (0, random.one_of([1, 2, 5, 21])),
                opening: random.one_of([Opening::Nobody, Opening::Tolerated, Opening::Most, Opening::Any]),
                records: (0, random.one_of([100, 600, 1500, 3000])),
                fail: random.below(100),
                hide: random.below(60),
                swing: random.below(60),
                twins: random.below(80),
                bend: random.below(40),
                skip: random.below(20),
                odd: random.below(12),
                branches: 0,
                other: random.below(50),
                damage: random.one_of([0, 0, 0, 2]),
            },
            _ => STEADY,
        }
    }
}

/// A stream in the making, and the run that it makes.
struct Stream {
    random: Random,
    profile: Profile,
    limit: usize,
    faults: u64,
    open: SeatSet,
    /// Kept seats that are shown nothing until the end.
    silent: SeatSet,
    /// The chance of the view at hand that a seat is not shown a block.
    hide: u64,
    blocks: u32,
    letters: usize,
    /// The newest block of each branch.
    tips: Vec<u32>,
    bytes: Vec<u8>,
    rehearsal: Rehearsal,
}

impl Stream {
    fn new(kind: &str, seed: u64) -> Stream {
        let place = KINDS.iter().position(|&known| known == kind).unwrap_or(0);
        let mut random = Random::new(seed, place as u64);
        let profile = Profile::of(kind, &mut random);
        let limit = random.within(profile.records.0, profile.records.1) as usize;
        let faults = random.within(profile.faults.0, profile.faults.1);
        Stream {
            random,
            profile,
            limit,
            faults,
            open: SeatSet::default(),
            silent: SeatSet::default(),
            hide: 0,
            blocks: 1,
            letters: 0,
            tips: vec![0; profile.branches as usize],
            bytes: Vec::new(),
            rehearsal: Rehearsal::default(),
        }
    }

    fn make(mut self, kind: &str) -> Vec<u8> {
        if kind == "full" && self.random.percent(30) {
            self.limit = MAX_RECORDS + self.random.below(3) as usize;
        }
        self.opening(kind);
        let mut view = 1;
        while !self.is_long_enough() {
            self.round(view);
            view = self.next_view(view);
        }
        self.show_silent_seats();
        if matches!(kind, "damaged" | "brief" | "full") && self.random.percent(50) {
            let left = self.random.within(1, RECORD_BYTES as u64 - 1);
            let tail = self.any_bytes();
            self.bytes.extend(&tail[..left as usize]);
        }
        self.bytes
    }

    fn is_long_enough(&self) -> bool {
        self.bytes.len() / RECORD_BYTES >= self.limit
    }

    // Records.

    fn opening(&mut self, kind: &str) {
        if self.is_long_enough() {
            return;
        }
        self.open = self.open_set();
        // Where the open seats decide alone, the kept ones may stay silent.
        if u64::from(self.open.len()) > 2 * self.faults && self.random.percent(60) {
            self.silent = SeatSet(SeatSet::first(self.seats()).0 & !self.open.0);
        }
        let mut record = [0; RECORD_BYTES];
        record[0] = b'O';
        record[1] = self.faults as u8;
        record[24..].copy_from_slice(&self.open.0.to_le_bytes());
        if matches!(kind, "damaged" | "brief" | "wild") {
            match self.random.below(16) {
                0 => return,
                1 => record[1] = self.random.next() as u8,
                2 => record[24..].copy_from_slice(&self.random.next().to_le_bytes()),
                3 => self.damage(&mut record),
                _ => {}
            }
        }
        self.push(record);
    }

    fn open_set(&mut self) -> SeatSet {
        let all = SeatSet::first(self.seats());
        match self.profile.opening {
            Opening::Nobody => SeatSet::default(),
            Opening::Tolerated => {
                let most = self.random.within(self.faults / 2, self.faults);
                self.some_of(all, most)
            }
            Opening::Most => {
                let least = 2 * self.faults + self.random.below(2);
                let most = self.seats() as u64 - 1;
                let count = self.random.within(least.min(most), most);
                self.some_of(all, count)
            }
            Opening::Any => SeatSet(self.random.next() & all.0),
        }
    }

    /// Sends a call, now and then after a bent one. Gives the answer.
    fn send(&mut self, call: Call) -> Option<u32> {
        if self.random.percent(self.profile.bend) {
            let bent = self.bend(call);
            self.send_plain(bent);
        }
        self.send_plain(call)
    }

    fn send_plain(&mut self, call: Call) -> Option<u32> {
        let mut record = self.encode(call);
        if self.random.percent(self.profile.damage) {
            self.damage(&mut record);
        }
        let answer = self.push(record)?;
        match record[0] {
            b'F' | b'S' => self.blocks = answer + 1,
            b'E' | b'L' => self.letters += 1,
            _ => {}
        }
        Some(answer)
    }

    fn push(&mut self, record: [u8; RECORD_BYTES]) -> Option<u32> {
        if self.is_long_enough() {
            return None;
        }
        self.bytes.extend(&record);
        self.rehearsal.play(&record).ok()
    }

    fn encode(&mut self, call: Call) -> [u8; RECORD_BYTES] {
        // Fields that are not read may hold anything.
        let mut record = [0; RECORD_BYTES];
        if self.random.percent(20) {
            record = self.any_bytes();
            record[2..4].fill(0);
            record[12..16].fill(0);
        }
        match call {
            Call::Fast(proposal) | Call::Slow(proposal) => {
                record[0] = if matches!(call, Call::Fast(_)) { b'F' } else { b'S' };
                record[4..8].copy_from_slice(&proposal.view.to_le_bytes());
                record[8..12].copy_from_slice(&proposal.parent.to_le_bytes());
                record[16..24].copy_from_slice(&proposal.payload.to_le_bytes());
                record[24..].copy_from_slice(&proposal.heard.0.to_le_bytes());
            }
            Call::Show { seat, block } | Call::Vote { seat, block } => {
                record[0] = if matches!(call, Call::Show { .. }) { b'H' } else { b'V' };
                record[1] = seat;
                record[8..12].copy_from_slice(&block.to_le_bytes());
            }
            Call::Expire { seat, view } => {
                record[0] = b'E';
                record[1] = seat;
                record[4..8].copy_from_slice(&view.to_le_bytes());
            }
            Call::Letter { seat, view, block } => {
                record[0] = b'L';
                record[1] = seat;
                record[4..8].copy_from_slice(&view.to_le_bytes());
                record[8..12].copy_from_slice(&block.to_le_bytes());
            }
        }
        record
    }

    fn any_bytes(&mut self) -> [u8; RECORD_BYTES] {
        std::array::from_fn(|_| self.random.next() as u8)
    }

    fn damage(&mut self, record: &mut [u8; RECORD_BYTES]) {
        let byte = self.random.within(1, 255) as u8;
        match self.random.below(6) {
            0 => record[0] = byte,
            1 => record[0] = self.random.one_of(*b"OFSHEVLofshevl"),
            2 => record[self.random.within(2, 3) as usize] = byte,
            3 => record[self.random.within(12, 15) as usize] = byte,
            4 => record[0] = b'O',
            _ => *record = self.any_bytes(),
        }
    }

    // Bent calls.

    /// The call with something changed, or another one with loose fields.
    fn bend(&mut self, call: Call) -> Call {
        if self.random.percent(25) {
            return self.loose_call();
        }
        match call {
            Call::Fast(proposal) => {
                let bent = self.bend_proposal(proposal);
                self.random.either(15, Call::Slow(bent), Call::Fast(bent))
            }
            Call::Slow(proposal) => {
                let bent = self.bend_proposal(proposal);
                self.random.either(15, Call::Fast(bent), Call::Slow(bent))
            }
            Call::Show { seat, block } | Call::Vote { seat, block } => {
                let (seat, block) = match self.random.below(3) {
                    0 => (self.loose_seat(), block),
                    1 => (seat, self.loose_block()),
                    _ => (self.loose_seat(), self.loose_block()),
                };
                self.random.either(50, Call::Show { seat, block }, Call::Vote { seat, block })
            }
            Call::Expire { seat, view } => match self.random.below(3) {
                0 => Call::Expire { seat: self.loose_seat(), view },
                1 => Call::Expire { seat, view: self.loose_view(view) },
                _ => Call::Letter { seat, view, block: self.loose_block() },
            },
            Call::Letter { seat, view, block } => match self.random.below(4) {
                0 => Call::Letter { seat: self.loose_seat(), view, block },
                1 => Call::Letter { seat, view: self.loose_view(view), block },
                2 => Call::Letter { seat, view, block: self.loose_block() },
                _ => Call::Expire { seat, view },
            },
        }
    }

    fn bend_proposal(&mut self, mut proposal: Proposal) -> Proposal {
        match self.random.below(6) {
            0 => proposal.view = self.loose_view(proposal.view),
            1 => proposal.parent = self.loose_block(),
            2 => proposal.heard.0 &= self.random.next(),
            3 if self.random.percent(30) => proposal.heard.0 |= 1 << self.random.below(64),
            3 => proposal.heard.0 |= 1 << self.random.below(self.seats() as u64),
            4 => {
                proposal.heard.0 ^= 1 << self.random.below(self.seats() as u64);
                proposal.heard.0 ^= 1 << self.random.below(self.seats() as u64);
            }
            _ => {
                proposal.view = self.loose_view(proposal.view);
                proposal.parent = self.loose_block();
                proposal.heard = self.loose_set();
            }
        }
        proposal
    }

    fn loose_call(&mut self) -> Call {
        let (seat, block) = (self.loose_seat(), self.loose_block());
        let near = self.random.below(2 * u64::from(self.blocks) + 2) as View;
        let view = self.loose_view(near);
        let heard = self.loose_set();
        let proposal = Proposal { view, parent: block, payload: self.random.next(), heard };
        match self.random.below(6) {
            0 => Call::Fast(proposal),
            1 => Call::Slow(proposal),
            2 => Call::Show { seat, block },
            3 => Call::Expire { seat, view },
            4 => Call::Vote { seat, block },
            _ => Call::Letter { seat, view, block },
        }
    }

    fn loose_seat(&mut self) -> Seat {
        match self.random.below(8) {
            0 => self.seats() as Seat,
            1 => self.random.next() as Seat,
            _ => self.random.below(self.seats() as u64) as Seat,
        }
    }

    fn loose_block(&mut self) -> u32 {
        match self.random.below(12) {
            0 => self.blocks,
            1 => self.random.next() as u32,
            2 => 256 + self.random.below(u64::from(self.blocks)) as u32,
            _ => self.random.below(u64::from(self.blocks)) as u32,
        }
    }

    fn loose_view(&mut self, near: View) -> View {
        match self.random.below(12) {
            0 => 0,
            1 => MAX_VIEW + 1,
            2 => self.random.next() as View,
            3 => near | 1 << self.random.within(20, 31),
            4 | 5 => near + 1,
            6 | 7 => near.saturating_sub(1),
            8 => near + self.random.below(5) as View,
            9 if self.random.percent(20) => MAX_VIEW,
            _ => near,
        }
    }

    fn loose_set(&mut self) -> SeatSet {
        let all = SeatSet::first(self.seats()).0;
        match self.random.below(4) {
            0 => SeatSet(self.random.next()),
            1 => SeatSet(self.random.next() & all),
            _ => SeatSet((self.random.next() | self.random.next()) & all),
        }
    }

    // Rounds.

    /// What happens in one view.
    fn round(&mut self, view: View) {
        let own_chance = self.random.one_of([0, 0, 40, 85]);
        self.hide = self.random.either(self.profile.swing, own_chance, self.profile.hide);
        let first_new = self.blocks;
        if self.tips.is_empty() || self.letters >= MAX_LETTERS {
            self.make_blocks(view);
        } else {
            self.grow_branches(view);
        }
        for block in first_new..self.blocks {
            self.spread(block);
        }
        for _ in 0..self.random.below(self.profile.odd + 1) {
            self.odd_call(view);
        }
    }

    fn make_blocks(&mut self, view: View) {
        if self.random.percent(self.profile.fail) {
            self.leave_for(view);
        }
        self.make_block(view);
        while self.is_open_led(view) && self.random.percent(self.profile.twins) && !self.is_long_enough() {
            self.change_letters(view);
            self.make_block(view);
        }
    }

    /// Each branch gets a block, where the leader is open; else one of them does.
    fn grow_branches(&mut self, view: View) {
        let mut order: Vec<usize> = (0..self.tips.len()).collect();
        self.random.shuffle(&mut order);
        if !self.is_open_led(view) {
            order.truncate(1);
        }
        for branch in order {
            match self.random.below(100) {
                0..=14 => continue,
                15..=22 => self.tips[branch] = self.tips[self.random.below(self.tips.len() as u64) as usize],
                _ => {}
            }
            if let Some(block) = self.grow(view, self.tips[branch]) {
                self.tips[branch] = block;
            }
        }
    }

    fn grow(&mut self, view: View, tip: u32) -> Option<u32> {
        let book = self.book()?;
        let tip = book.find(tip).ok()?;
        let (tip_view, voters) = (book[tip].view, book[tip].voters);
        if tip_view + 1 == view && u64::from(voters.len()) > 2 * self.faults && self.random.percent(60) {
            let proposal = self.proposal(view, tip, voters);
            return self.send(Call::Fast(proposal));
        }
        self.letters_on(view, tip);
        let call = self.slow_call(view)?;
        self.send(call)
    }

    /// Open seats write letters that name the tip, or blocks that do not outrank it. Kept seats expire.
    fn letters_on(&mut self, view: View, tip: BlockId) -> Option<()> {
        let book = self.book()?;
        let lower: Vec<BlockId> = self.held(book).filter(|&block| book.rank(block) <= book.rank(tip)).collect();
        let rivals: Vec<BlockId> =
            lower.iter().copied().filter(|&block| block != tip && book[block].view == book[tip].view).collect();
        let share = self.random.one_of([95, 90, 60, 30]);
        for seat in self.shuffled_seats() {
            let block = match self.random.percent(share) {
                true => tip,
                false if rivals.is_empty() || self.random.percent(20) => self.random.pick(&lower)?,
                false => self.random.pick(&rivals)?,
            };
            if self.open.contains(seat) {
                self.send(Call::Letter { seat, view, block: block.number() });
            } else if !self.silent.contains(seat) && self.kept_view(seat)? < view {
                self.send(Call::Expire { seat, view });
            }
        }
        Some(())
    }

    fn next_view(&mut self, view: View) -> View {
        if view >= MAX_VIEW {
            return self.random.within(1, u64::from(MAX_VIEW)) as View;
        }
        if self.letters >= MAX_LETTERS && self.fast_call(view + 1).is_none() {
            // Only votes can carry the run on.
            return self.view_after_votes().unwrap_or(view + 1);
        }
        if !self.random.percent(self.profile.skip) {
            return view + 1;
        }
        match self.random.below(200) {
            0 => MAX_VIEW - self.random.below(4) as View,
            1 => view + 100_000,
            _ => view + self.random.within(2, 4) as View,
        }
        .min(MAX_VIEW)
    }

    fn view_after_votes(&mut self) -> Option<View> {
        let book = self.book()?;
        let views: Vec<View> = self
            .held(book)
            .filter(|&block| u64::from(book[block].voters.len()) > 2 * self.faults)
            .map(|block| book[block].view + 1)
            .collect();
        self.random.pick(&views)
    }

    /// Makes a fast block where votes allow it, else a slow one, after letters if need be.
    fn make_block(&mut self, view: View) {
        let fast = self.fast_call(view);
        let slow = self.slow_call(view);
        let call = match (fast, slow) {
            (Some(fast), Some(slow)) => self.random.either(30, fast, slow),
            (Some(fast), None) => fast,
            (None, Some(slow)) => slow,
            (None, None) => {
                self.leave_for(view);
                self.slow_call(view).unwrap_or_else(|| self.loose_call())
            }
        };
        if let Call::Slow(proposal) = call {
            self.try_other_parent(proposal);
        }
        self.send(call);
    }

    /// Now and then, the same slow block on another reported block. Most are outranked.
    fn try_other_parent(&mut self, mut proposal: Proposal) -> Option<u32> {
        if !self.random.percent(self.profile.other) {
            return None;
        }
        let reported: Vec<BlockId> = self.book()?.reports(proposal.view).blocks().collect();
        proposal.parent = self.random.pick(&reported)?.number();
        self.send(Call::Slow(proposal))
    }

    fn fast_call(&mut self, view: View) -> Option<Call> {
        let book = self.book()?;
        let quorum = 2 * self.faults + 1;
        let parents: Vec<(BlockId, SeatSet)> = self
            .held(book)
            .filter(|&block| book[block].view + 1 == view)
            .map(|block| (block, book[block].voters))
            .filter(|(_, voters)| u64::from(voters.len()) >= quorum)
            .collect();
        let (parent, voters) = self.random.pick(&parents)?;
        Some(Call::Fast(self.proposal(view, parent, voters)))
    }

    fn slow_call(&mut self, view: View) -> Option<Call> {
        let reports = self.book()?.reports(view);
        if u64::from(reports.seats().len()) <= 2 * self.faults {
            return None;
        }
        let mut proposal = self.proposal(view, BlockId::GENESIS, reports.seats());
        let reports = reports.of(proposal.heard)?;
        let book = self.book()?;
        let highest = reports.blocks().map(|block| book.rank(block)).max()?;
        let parents: Vec<BlockId> = reports.blocks().filter(|&block| book.rank(block) == highest).collect();
        proposal.parent = self.random.pick(&parents)?.number();
        Some(Call::Slow(proposal))
    }

    /// Hears all of the seats, or a part that is still a quorum.
    fn proposal(&mut self, view: View, parent: BlockId, seats: SeatSet) -> Proposal {
        let least = 2 * self.faults + 1;
        let count = match self.random.below(3) {
            0 => least,
            1 => self.random.within(least, u64::from(seats.len())),
            _ => u64::from(seats.len()),
        };
        let heard = self.some_of(seats, count);
        let payload = if self.random.percent(50) { 0 } else { self.random.next() };
        Proposal { view, parent: parent.number(), payload, heard }
    }

    /// Kept seats expire to the view, and open ones write letters for it.
    fn leave_for(&mut self, view: View) {
        let left_out = if self.letters >= MAX_LETTERS { 90 } else { 5 };
        for seat in self.shuffled_seats() {
            if self.random.percent(left_out) || self.silent.contains(seat) {
                continue;
            }
            match self.kept_view(seat) {
                Some(own) if own < view => self.send(Call::Expire { seat, view }),
                Some(_) => None,
                None => self.open_letter(seat, view),
            };
        }
    }

    /// Some open seats think again.
    fn change_letters(&mut self, view: View) {
        if !self.random.percent(self.profile.fail) {
            return;
        }
        for seat in self.shuffled_seats() {
            if self.open.contains(seat) && self.random.percent(30) {
                self.open_letter(seat, view);
            }
        }
    }

    fn open_letter(&mut self, seat: Seat, view: View) -> Option<u32> {
        let book = self.book()?;
        let earlier: Vec<BlockId> = self.held(book).filter(|&block| book[block].view < view).collect();
        let latest = earlier.iter().map(|&block| book[block].view).max()?;
        let tops: Vec<BlockId> = earlier.iter().copied().filter(|&block| book[block].view == latest).collect();
        let block = match self.random.below(20) {
            0 | 1 => self.random.pick(&earlier)?,
            2..=5 => self.random.pick(&earlier[earlier.len().saturating_sub(6)..])?,
            6..=14 if self.hide > 50 => self.random.pick(&earlier)?,
            _ => self.random.pick(&tops)?,
        };
        self.send(Call::Letter { seat, view, block: block.number() })
    }

    /// Shows a block to kept seats, one at least, and lets open ones vote for it.
    fn spread(&mut self, block: u32) {
        let mut shown = false;
        for seat in self.shuffled_seats() {
            let hidden = self.random.percent(self.hide) || self.silent.contains(seat);
            if self.open.contains(seat) {
                if !hidden {
                    self.send(Call::Vote { seat, block });
                }
            } else if !hidden || !shown && !self.silent.contains(seat) {
                shown = true;
                self.send(Call::Show { seat, block });
            }
        }
    }

    /// Shows each silent seat the blocks in an order of its own.
    fn show_silent_seats(&mut self) {
        for seat in self.silent.iter() {
            let mut blocks: Vec<u32> = (0..self.blocks).collect();
            self.random.shuffle(&mut blocks);
            self.limit = MAX_RECORDS.min(self.limit + blocks.len());
            for block in blocks {
                self.send_plain(Call::Show { seat, block });
            }
        }
    }

    /// A show, vote or letter out of turn.
    fn odd_call(&mut self, view: View) {
        let seat = self.random.below(self.seats() as u64) as Seat;
        let back = self.random.one_of([8, 24, 256]).min(u64::from(self.blocks));
        let block = self.blocks - 1 - self.random.below(back) as u32;
        let call = match self.random.below(10) {
            0 => Call::Letter { seat, view: view + self.random.below(3) as View, block },
            1 => Call::Expire { seat, view: view + self.random.below(3) as View },
            2 => Call::Vote { seat, block },
            _ if self.open.contains(seat) && self.random.percent(40) => Call::Vote { seat, block },
            _ => match self.kept_seat() {
                Some(seat) => Call::Show { seat, block },
                None => Call::Vote { seat, block },
            },
        };
        self.send(call);
    }

    // The run so far.

    fn seats(&self) -> usize {
        (3 * self.faults.min(u64::from(MAX_FAULTS)) + 1) as usize
    }

    fn is_open_led(&self, view: View) -> bool {
        self.open.contains((view as usize % self.seats()) as Seat)
    }

    fn cluster(&self) -> Option<&Cluster> {
        self.rehearsal.cluster()
    }

    fn book(&self) -> Option<&Book> {
        Some(&self.cluster()?.book)
    }

    fn held<'a>(&self, book: &'a Book) -> impl Iterator<Item = BlockId> + 'a {
        (0..self.blocks).filter_map(|number| book.find(number).ok())
    }

    fn kept_view(&self, seat: Seat) -> Option<View> {
        Some(self.cluster()?.seat(seat).ok()??.view)
    }

    fn kept_seat(&mut self) -> Option<Seat> {
        let kept = SeatSet(SeatSet::first(self.seats()).0 & !self.open.0 & !self.silent.0);
        let seats: Vec<Seat> = kept.iter().collect();
        self.random.pick(&seats)
    }

    fn shuffled_seats(&mut self) -> Vec<Seat> {
        let mut seats: Vec<Seat> = SeatSet::first(self.seats()).iter().collect();
        self.random.shuffle(&mut seats);
        seats
    }

    fn some_of(&mut self, set: SeatSet, count: u64) -> SeatSet {
        let mut seats: Vec<Seat> = set.iter().collect();
        self.random.shuffle(&mut seats);
        let mut some = SeatSet::default();
        for &seat in seats.iter().take(count as usize) {
            some.insert(seat);
        }
        some
    }
}

fn stream(seed: u64, kind: &str) -> Vec<u8> {
    Stream::new(kind, seed).make(kind)
}

fn kind_of(seed: u64, kind: &str) -> Option<&'static str> {
    if kind == "all" {
        return Some(KINDS[(seed % KINDS.len() as u64) as usize]);
    }
    KINDS.into_iter().find(|&known| known == kind)
}

fn run(arguments: &[String]) -> Option<io::Result<()>> {
    let seed: u64 = arguments.first()?.parse().ok()?;
    let kind = arguments.get(1)?;
    kind_of(seed, kind)?;
    match &arguments[2..] {
        [] => Some(io::stdout().write_all(&stream(seed, kind_of(seed, kind)?))),
        [count, folder] => {
            let count: u64 = count.parse().ok()?;
            Some((seed..seed + count).try_for_each(|seed| {
                let kind = kind_of(seed, kind).unwrap_or("mixed");
                std::fs::write(Path::new(folder).join(format!("{seed}.{kind}")), stream(seed, kind))
            }))
        }
        _ => None,
    }
}

fn main() -> ExitCode {
    let arguments: Vec<String> = std::env::args().skip(1).collect();
    match run(&arguments) {
        Some(Ok(())) => ExitCode::SUCCESS,
        Some(Err(error)) => {
            eprintln!("streams: {error}");
            ExitCode::FAILURE
        }
        None => {
            eprintln!("usage: streams SEED KIND [COUNT DIR]\nkinds: all {}", KINDS.join(" "));
            ExitCode::FAILURE
        }
    }
}
