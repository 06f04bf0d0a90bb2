//! The book of blocks and letters.

use std::ops::{Index, IndexMut};

use crate::refusal::Refusal;
use crate::seats::{check_view, CountRule, RoundRobin, Seat, SeatSet, View, MAX_SEATS};

pub const MAX_BLOCKS: usize = 256;
pub const MAX_LETTERS: usize = 512;

/// A block of the book. Only the book makes these.
#[derive(Clone, Copy, Debug, PartialEq, Eq, PartialOrd, Ord)]
pub struct BlockId(u16);

impl BlockId {
    pub const GENESIS: BlockId = BlockId(0);

    pub fn number(self) -> u32 {
        u32::from(self.0)
    }
}

#[derive(Clone, Debug)]
pub enum Kind {
    Genesis,
    Fast,
    Slow(Reports),
}

/// What each of some seats names.
#[derive(Clone, Debug)]
pub struct Reports {
    seats: SeatSet,
    named: [BlockId; MAX_SEATS],
}

impl Reports {
    fn none() -> Reports {
        Reports { seats: SeatSet::default(), named: [BlockId::GENESIS; MAX_SEATS] }
    }

    fn set(&mut self, seat: Seat, block: BlockId) {
        self.seats.insert(seat);
        self.named[usize::from(seat)] = block;
    }

    /// Only the reports of these seats; nothing if one of them has none.
    pub fn of(mut self, seats: SeatSet) -> Option<Reports> {
        if !seats.is_subset(self.seats) {
            return None;
        }
        self.seats = seats;
        Some(self)
    }

    #[allow(dead_code)] // For the maker of streams.
    pub fn seats(&self) -> SeatSet {
        self.seats
    }

    pub fn blocks(&self) -> impl Iterator<Item = BlockId> + '_ {
        self.seats.iter().map(|seat| self.named[usize::from(seat)])
    }

    fn seats_naming(&self, block: BlockId) -> SeatSet {
        let mut seats = SeatSet::default();
        for seat in self.seats.iter() {
            if self.named[usize::from(seat)] == block {
                seats.insert(seat);
            }
        }
        seats
    }
}

#[derive(Clone, Debug)]
#[allow(dead_code)] // No record asks for the height, the payload, the maker or the heard seats.
pub struct Block {
    pub view: View,
    pub parent: Option<BlockId>,
    pub payload: u64,
    pub maker: Option<Seat>,
    pub height: u32,
    pub heard: SeatSet,
    pub kind: Kind,
    pub certificate: BlockId,
    pub commit_point: BlockId,
    pub voters: SeatSet,
}

#[derive(Clone, Copy, Debug)]
pub struct Letter {
    pub seat: Seat,
    pub view: View,
    pub block: BlockId,
}

/// What a maker asks for.
#[derive(Clone, Copy, Debug)]
pub struct Proposal {
    pub view: View,
    pub parent: u32,
    pub payload: u64,
    pub heard: SeatSet,
}

/// The view of a block, then that of its certificate.
#[derive(Clone, Copy, Debug, PartialEq, Eq, PartialOrd, Ord)]
pub struct Rank(View, View);

pub struct Book {
    rule: CountRule,
    rotation: RoundRobin,
    open: SeatSet,
    blocks: Vec<Block>,
    letters: Vec<Letter>,
}

impl Index<BlockId> for Book {
    type Output = Block;

    fn index(&self, block: BlockId) -> &Block {
        &self.blocks[usize::from(block.0)]
    }
}

impl IndexMut<BlockId> for Book {
    fn index_mut(&mut self, block: BlockId) -> &mut Block {
        &mut self.blocks[usize::from(block.0)]
    }
}

impl Book {
    /// A book with genesis alone, and room for all that it may come to hold.
    pub fn new(rule: CountRule, rotation: RoundRobin, open: SeatSet) -> Result<Book, Refusal> {
        let mut blocks = reserve(MAX_BLOCKS)?;
        blocks.push(genesis(rule));
        Ok(Book { rule, rotation, open, blocks, letters: reserve(MAX_LETTERS)? })
    }

    pub fn find(&self, number: u32) -> Result<BlockId, Refusal> {
        if number as usize >= self.blocks.len() {
            return Err(Refusal::NoSuchBlock);
        }
        Ok(BlockId(number as u16))
    }

    /// The chain of a block, from itself down to genesis.
    pub fn chain(&self, top: BlockId) -> impl Iterator<Item = BlockId> + '_ {
        std::iter::successors(Some(top), |&block| self[block].parent)
    }

    pub fn stands_on(&self, upper: BlockId, lower: BlockId) -> bool {
        // Parents have smaller numbers.
        self.chain(upper).take_while(|&block| block >= lower).any(|block| block == lower)
    }

    pub fn conflict(&self, a: BlockId, b: BlockId) -> bool {
        !self.stands_on(a, b) && !self.stands_on(b, a)
    }

    pub fn rank(&self, block: BlockId) -> Rank {
        let Block { view, certificate, .. } = self[block];
        Rank(view, self[certificate].view)
    }

    /// The latest letter of each seat for a view.
    pub fn reports(&self, view: View) -> Reports {
        let mut reports = Reports::none();
        for letter in self.letters.iter().filter(|letter| letter.view == view) {
            reports.set(letter.seat, letter.block);
        }
        reports
    }

    pub fn fast(&mut self, proposal: &Proposal) -> Result<BlockId, Refusal> {
        let parent = self.admit(proposal)?;
        if !proposal.heard.is_subset(self[parent].voters) {
            return Err(Refusal::NotBacked);
        }
        if self[parent].view + 1 != proposal.view {
            return Err(Refusal::BadParent);
        }
        Ok(self.enter(proposal, parent, Kind::Fast, parent))
    }

    pub fn slow(&mut self, proposal: &Proposal) -> Result<BlockId, Refusal> {
        let parent = self.admit(proposal)?;
        let reports = self.reports(proposal.view).of(proposal.heard).ok_or(Refusal::NotBacked)?;
        if !self.is_highest(parent, &reports) {
            return Err(Refusal::BadParent);
        }
        let certificate = self.slow_certificate(parent, &reports);
        Ok(self.enter(proposal, parent, Kind::Slow(reports), certificate))
    }

    pub fn add_vote(&mut self, seat: Seat, block: BlockId) -> u32 {
        let voters = &mut self[block].voters;
        voters.insert(seat);
        voters.len()
    }

    pub fn add_letter(&mut self, letter: Letter) -> Result<u32, Refusal> {
        if self[letter.block].view >= letter.view {
            return Err(Refusal::BlockNotEarlier);
        }
        if self.letters.len() >= MAX_LETTERS {
            return Err(Refusal::LettersFull);
        }
        self.letters.push(letter);
        Ok(self.letters.len() as u32)
    }

    /// What fast and slow blocks are refused for alike; gives the parent.
    fn admit(&self, proposal: &Proposal) -> Result<BlockId, Refusal> {
        if !proposal.heard.is_subset(self.rule.all()) {
            return Err(Refusal::SetOutOfRange);
        }
        let parent = self.find(proposal.parent)?;
        let view = check_view(proposal.view)?;
        if self.blocks.len() >= MAX_BLOCKS {
            return Err(Refusal::BlocksFull);
        }
        let leader_is_open = self.open.contains(self.rotation.leader(view));
        if !leader_is_open && self.blocks.iter().any(|block| block.view == view) {
            return Err(Refusal::ViewTaken);
        }
        if !self.rule.is_quorum(proposal.heard) {
            return Err(Refusal::NoQuorum);
        }
        Ok(parent)
    }

    /// Whether the block is reported, and no report outranks it.
    fn is_highest(&self, block: BlockId, reports: &Reports) -> bool {
        let rank = self.rank(block);
        let reported = reports.blocks().any(|report| report == block);
        reported && reports.blocks().all(|report| self.rank(report) <= rank)
    }

    fn slow_certificate(&self, parent: BlockId, reports: &Reports) -> BlockId {
        let inherited = self[parent].certificate;
        self.named_by_quorum(reports)
            .filter(|&named| self[named].view > self[inherited].view)
            .filter(|&named| self.stands_on(parent, named))
            .unwrap_or(inherited)
    }

    fn named_by_quorum(&self, reports: &Reports) -> Option<BlockId> {
        reports.blocks().find(|&block| self.rule.is_quorum(reports.seats_naming(block)))
    }

    fn enter(&mut self, proposal: &Proposal, parent: BlockId, kind: Kind, certificate: BlockId) -> BlockId {
        let block = BlockId(self.blocks.len() as u16);
        self.blocks.push(Block {
            view: proposal.view,
            parent: Some(parent),
            payload: proposal.payload,
            maker: Some(self.rotation.leader(proposal.view)),
            height: self[parent].height + 1,
            heard: proposal.heard,
            kind,
            certificate,
            commit_point: self.commit_point(parent, certificate),
            voters: SeatSet::default(),
        });
        block
    }

    /// The commit point of a block with this parent and this certificate.
    fn commit_point(&self, parent: BlockId, certificate: BlockId) -> BlockId {
        let inherited = self[parent].commit_point;
        let second = self[certificate].certificate;
        if self[second].view > self[inherited].view && self.is_good(certificate, second) {
            return second;
        }
        inherited
    }

    fn is_good(&self, first: BlockId, second: BlockId) -> bool {
        self[first].view == self[second].view + 1 || !self.clash(first, second)
    }

    /// Whether a slow block of the first's chain, above the second, speaks against the second.
    fn clash(&self, first: BlockId, second: BlockId) -> bool {
        self.chain(first)
            .take_while(|&block| self[block].view > self[second].view)
            .any(|block| self.speaks_against(block, second))
    }

    /// Whether a report of the parent's view, other than the parent, conflicts with the second.
    fn speaks_against(&self, block: BlockId, second: BlockId) -> bool {
        let Block { parent: Some(parent), kind: Kind::Slow(reports), .. } = &self[block] else {
            return false;
        };
        reports
            .blocks()
            .any(|report| report != *parent && self[report].view == self[*parent].view && self.conflict(report, second))
    }
}

fn genesis(rule: CountRule) -> Block {
    Block {
        view: 0,
        parent: None,
        payload: 0,
        maker: None,
        height: 0,
        heard: SeatSet::default(),
        kind: Kind::Genesis,
        certificate: BlockId::GENESIS,
        commit_point: BlockId::GENESIS,
        voters: rule.all(),
    }
}

fn reserve<T>(room: usize) -> Result<Vec<T>, Refusal> {
    let mut things = Vec::new();
    things.try_reserve_exact(room).map_err(|_| Refusal::WantOfMemory)?;
    Ok(things)
}
