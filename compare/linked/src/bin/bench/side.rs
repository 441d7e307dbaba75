//! The sides that are timed. So many blocks are on loan, and in each round as many as a quarter of them
//! go back in some order and are asked for again. No timed call needs the device: there is room before,
//! and a block of each chunk stays on loan.

use {
    crate::clock::Clock,
    compare::{
        bare::{Bare, BareBlock},
        random::Random,
        settings::Settings,
        tape::{Block, Outcome},
    },
    linked::{
        account::Account,
        ffi::{Answer, Engines},
        store::Store,
    },
};

/// Of the blocks on loan, one in so many is exchanged in a round.
const EXCHANGED: usize = 4;
/// Rounds before the first batch, so that none is timed in the dense store of the beginning.
const SETTLING: usize = 16;
/// Calls of each kind in a batch, about: cheap and dear ones are in each batch alike.
const BATCH: usize = 1_000;
const SIZE_LIMIT: u64 = 1_024;
/// What is held for each block on loan: with less, gaps between blocks could be too small for another.
const ROOM: u64 = 2 * SIZE_LIMIT;

/// The answers that are an order, and a return that releases nothing.
const ORDER: u64 = 2;
const RETURNED: [u64; 2] = [3, 0];
/// And the refusal of a slip that no block on loan has.
const STALE: [u64; 2] = [4, 7];

/// The order in which blocks go back: any, the newest first, or the oldest first.
#[derive(Clone, Copy)]
pub enum Churn {
    Random,
    Stack,
    Queue,
}

pub const CHURNS: [(&str, Churn); 3] =
    [("random", Churn::Random), ("stack", Churn::Stack), ("queue", Churn::Queue)];

/// What the stores of both sides do.
pub trait Lender {
    type Lent;
    /// A block, for which the device gives a chunk if it has to.
    fn fill(&mut self, size: u64) -> Self::Lent;
    /// There is room now: a later call that needs memory of the device ends the run.
    fn rest_device(&mut self);
    /// A block that there is room for.
    fn ask(&mut self, size: u64) -> Self::Lent;
    fn take_back(&mut self, block: Self::Lent);
    /// Chunk, offset and size.
    fn place(block: &Self::Lent) -> (u64, u64, u64);
}

/// A store of ours with its account, and the numbers of its memory, which do not rise.
pub struct Ours {
    store: Store,
    account: Account,
    memories: Random,
}

/// A side with its blocks on loan, the oldest first but for random churn, and the nanoseconds of a call
/// in its best batches. Sides of as many blocks have the same random numbers, and so the same calls.
pub struct Side<L: Lender> {
    lender: L,
    pins: Vec<L::Lent>,
    blocks: Vec<L::Lent>,
    random: Random,
    churn: Churn,
    exchanged: usize,
    clock: Clock,
    pub ask: f64,
    pub take_back: f64,
}

impl<L: Lender> Side<L> {
    /// A side of a store that was set up, with so many blocks on loan.
    pub fn new(mut lender: L, live: usize, churn: Churn) -> Side<L> {
        let pins = make_room(&mut lender, live);
        let mut side = Side {
            lender,
            pins,
            blocks: Vec::with_capacity(live),
            random: Random::new(1, live as u64),
            churn,
            exchanged: live / EXCHANGED,
            clock: Clock::first(),
            ask: f64::INFINITY,
            take_back: f64::INFINITY,
        };
        for size in side.sizes(live - side.pins.len()) {
            side.blocks.push(side.lender.ask(size));
        }
        let times = (0..SETTLING).map(|_| side.round());
        let shortest = times.map(|(take_back, ask)| take_back + ask).fold(f64::INFINITY, f64::min);
        side.clock = Clock::suited_to(shortest);
        side
    }

    /// Times a batch of rounds. Answers how many calls of each kind were in it.
    pub fn batch(&mut self) -> usize {
        let rounds = BATCH / self.exchanged;
        let (mut ask, mut take_back) = (0.0, 0.0);
        for _ in 0..rounds {
            let (returns, asks) = self.round();
            take_back += returns;
            ask += asks;
        }
        let calls = rounds * self.exchanged;
        self.ask = self.ask.min(ask / calls as f64);
        self.take_back = self.take_back.min(take_back / calls as f64);
        calls
    }

    /// Times the returns and the asks of a round.
    fn round(&mut self) -> (f64, f64) {
        let (mut due, lender) = (self.due(), &mut self.lender);
        // Drained, so that the list is not freed while the clock runs.
        let returns = self.clock.time(|| due.drain(..).for_each(|block| lender.take_back(block)));
        let (sizes, lender) = (self.sizes(self.exchanged), &mut self.lender);
        let asked = sizes.iter().map(|&size| lender.ask(size));
        let asks = self.clock.time(|| self.blocks.extend(asked));
        (returns, asks)
    }

    /// The blocks that go back in a round, in that order.
    fn due(&mut self) -> Vec<L::Lent> {
        let kept = self.blocks.len() - self.exchanged;
        match self.churn {
            Churn::Random => {
                self.shuffle();
                self.blocks.split_off(kept)
            }
            Churn::Stack => self.blocks.drain(kept..).rev().collect(),
            Churn::Queue => self.blocks.drain(..self.exchanged).collect(),
        }
    }

    fn sizes(&mut self, count: usize) -> Vec<u64> {
        (0..count).map(|_| self.random.within(1..=SIZE_LIMIT)).collect()
    }

    fn shuffle(&mut self) {
        for last in (1..self.blocks.len()).rev() {
            let other = self.random.below(last as u64 + 1) as usize;
            self.blocks.swap(last, other);
        }
    }

    /// How many chunks are held.
    pub fn chunks(&self) -> usize {
        self.pins.len()
    }

    /// The places of the blocks on loan.
    pub fn places(&self) -> impl Iterator<Item = (u64, u64, u64)> + '_ {
        self.pins.iter().chain(&self.blocks).map(L::place)
    }
}

/// Makes room for so many blocks, by lending as much and taking it back: all but the first block of
/// each chunk, which keeps it from being released.
fn make_room<L: Lender>(lender: &mut L, live: usize) -> Vec<L::Lent> {
    let (mut pins, mut others): (Vec<L::Lent>, _) = (Vec::new(), Vec::new());
    for _ in 0..live {
        let block = lender.fill(ROOM);
        match pins.last() {
            Some(pin) if L::place(pin).0 == L::place(&block).0 => others.push(block),
            _ => pins.push(block),
        }
    }
    others.into_iter().for_each(|block| lender.take_back(block));
    lender.rest_device();
    pins
}

impl Side<Ours> {
    /// The nanoseconds of a return that is refused, in the mean of a batch: its serial was never given.
    pub fn refuse_slips(&mut self) -> f64 {
        let slip = Block { serial: u64::MAX, chunk: 0, offset: 0, size: 1 };
        let Ours { store, account, .. } = &mut self.lender;
        let returns = || {
            for _ in 0..BATCH {
                let answer = store.take_back(account, slip);
                assert_eq!(answer[..2], STALE, "an old slip");
            }
        };
        self.clock.time(returns) / BATCH as f64
    }
}

impl Side<Bare> {
    /// Returns all and cleans up: the crate tells of blocks that are lost.
    pub fn close(mut self) {
        let blocks = self.pins.drain(..).chain(self.blocks.drain(..));
        blocks.for_each(|block| self.lender.take_back(block));
        self.lender.cleanup();
    }
}

impl Ours {
    pub fn set_up(engines: &Engines, settings: &Settings) -> Ours {
        let header = settings.header();
        let store = Store::open(engines, &header).expect("settings within the table");
        let account = Account::new(&header).expect("an account within the table");
        Ours { store, account, memories: Random::new(1, 0) }
    }

    /// The answer to an ask while the order of an earlier one is open.
    pub fn ask_twice(mut self) -> Answer {
        self.store.ask(&mut self.account, 1, 0);
        *self.store.ask(&mut self.account, 1, 0)
    }

    /// The answer to an ask once the store is torn.
    pub fn ask_torn(mut self) -> Answer {
        self.store.tear();
        *self.store.ask(&mut self.account, 1, 0)
    }
}

impl Lender for Ours {
    type Lent = Block;

    fn fill(&mut self, size: u64) -> Block {
        let answer = self.store.ask(&mut self.account, size, 0);
        if answer[0] != ORDER {
            return block_of(answer);
        }
        let memory = self.memories.word();
        block_of(self.store.deliver(&mut self.account, Outcome::NotWanted, memory))
    }

    /// An order is no block, which an ask has to give.
    fn rest_device(&mut self) {}

    fn ask(&mut self, size: u64) -> Block {
        block_of(self.store.ask(&mut self.account, size, 0))
    }

    fn take_back(&mut self, block: Block) {
        let answer = self.store.take_back(&mut self.account, block);
        assert_eq!(answer[..2], RETURNED, "a return that releases nothing");
    }

    fn place(block: &Block) -> (u64, u64, u64) {
        (block.chunk, block.offset, block.size)
    }
}

impl Lender for Bare {
    type Lent = BareBlock;

    fn fill(&mut self, size: u64) -> BareBlock {
        self.alloc(size, 0)
    }

    fn rest_device(&mut self) {
        Bare::rest_device(self);
    }

    fn ask(&mut self, size: u64) -> BareBlock {
        self.alloc(size, 0)
    }

    fn take_back(&mut self, block: BareBlock) {
        self.dealloc(block);
    }

    fn place(block: &BareBlock) -> (u64, u64, u64) {
        block.place()
    }
}

fn block_of(answer: &Answer) -> Block {
    let [1, serial, chunk, offset, size, _] = *answer else {
        panic!("no block: {answer:?}");
    };
    Block { serial, chunk, offset, size }
}
