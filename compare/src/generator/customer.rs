//! A customer: makes random calls to one store, knowing what the store has answered so far.

use crate::{
    answer::{Answer, Order},
    generator::asks::{self, Taste},
    ledger::Ledger,
    random::Random,
    settings::{Kind, Settings},
    tape::{Block, Outcome, Record, OUTCOMES},
};

/// In which order a customer returns blocks.
#[derive(Clone, Copy)]
pub enum ReturnOrder {
    Stack,
    Queue,
    Random,
}

/// How a customer behaves; shares are in percent of its calls of that sort.
#[derive(Clone, Copy)]
pub struct Habits {
    pub taste: Taste,
    pub returns: ReturnOrder,
    /// Deliveries that report a failure.
    pub failures: u64,
    /// Calls that ought to be refused.
    pub mischief: u64,
    pub clean_ups: u64,
    /// Calls before the mood changes, at most.
    pub patience: u64,
}

pub struct Customer {
    random: Random,
    settings: Settings,
    habits: Habits,
    ledger: Ledger,
    /// Share of asks among asks and returns, and for how many calls it stays.
    asking: u64,
    mood_left: u64,
    next_memory: u64,
    /// The size of the latest order.
    chunk: u64,
}

impl Customer {
    pub fn new(mut random: Random, settings: Settings, habits: Habits) -> Customer {
        let chunk = match settings.kind {
            Kind::Buddy { minimal, initial, .. } => minimal.max(initial),
            Kind::FreeList { start_chunk, .. } => start_chunk,
        };
        Customer {
            next_memory: random.pick(&[0, 1, 1_000, u64::MAX - 20]),
            random,
            settings,
            habits,
            ledger: Ledger::default(),
            asking: 90,
            mood_left: habits.patience,
            chunk,
        }
    }

    /// The next call.
    pub fn call(&mut self) -> Record {
        let mischief = self.random.percent(self.habits.mischief);
        match (self.ledger.open, mischief) {
            (Some(order), false) => self.deliver(order),
            (Some(order), true) => self.disturb(order),
            (None, false) => self.trade(),
            (None, true) => self.offend(),
        }
    }

    /// Whether its store has an order open.
    pub fn is_waiting(&self) -> bool {
        self.ledger.open.is_some()
    }

    /// Takes note of what a call was answered.
    pub fn learn(&mut self, record: &Record, answer: &Answer) {
        self.ledger.enter(record, answer);
        match (record, answer) {
            (_, Answer::Order(order)) => self.chunk = order.size,
            // A store at its limit is asked a few times more, then the mood changes.
            (_, Answer::Refused(refusal)) if refusal.is_limit() => {
                self.mood_left = self.mood_left.min(3);
            }
            _ => {}
        }
    }

    /// An ask, a return or a clean-up that is meant to succeed.
    fn trade(&mut self) -> Record {
        if self.mood_left == 0 {
            self.asking = self.random.pick(&[10, 25, 50, 50, 75, 90]);
            self.mood_left = self.random.within(1..=self.habits.patience);
        }
        self.mood_left -= 1;
        if self.settings.is_free_list() && self.random.percent(self.habits.clean_ups) {
            return Record::CleanUp;
        }
        let loans = &self.ledger.loans;
        if loans.is_empty() || self.random.percent(self.asking) {
            return self.ask();
        }
        Record::Return(match self.habits.returns {
            ReturnOrder::Stack => loans[loans.len() - 1],
            ReturnOrder::Queue => loans[0],
            ReturnOrder::Random => self.random.pick(loans),
        })
    }

    fn ask(&mut self) -> Record {
        let taste = self.habits.taste;
        let (size, mask) = asks::usual(&mut self.random, &self.settings, taste, self.chunk);
        Record::Ask { size, mask }
    }

    fn odd_ask(&mut self) -> Record {
        let taste = self.habits.taste;
        let (size, mask) = asks::odd(&mut self.random, &self.settings, taste);
        Record::Ask { size, mask }
    }

    /// A delivery that suits the order.
    fn deliver(&mut self, order: Order) -> Record {
        let fails = self.random.percent(self.habits.failures);
        let outcome = self.outcome(|outcome| {
            let good = matches!(outcome, Outcome::Mapped | Outcome::NotWanted);
            outcome.suits(order.map) && good != fails
        });
        let memory = self.free_memory();
        delivery(outcome, memory)
    }

    /// One of the outcomes that are wanted.
    fn outcome(&mut self, wanted: impl Fn(Outcome) -> bool) -> Outcome {
        let outcomes = OUTCOMES.into_iter().filter(|&outcome| wanted(outcome));
        self.random.pick(&outcomes.collect::<Vec<Outcome>>())
    }

    /// A memory number that isn't held: a new one, or one that was held before.
    fn free_memory(&mut self) -> u64 {
        let Ledger { held, dropped, .. } = &self.ledger;
        if !dropped.is_empty() && self.random.percent(20) {
            let memory = self.random.pick(dropped);
            if !held.contains(&memory) {
                return memory;
            }
        }
        while held.contains(&self.next_memory) {
            self.next_memory = self.next_memory.wrapping_add(1);
        }
        let memory = self.next_memory;
        self.next_memory = memory.wrapping_add(1);
        memory
    }

    /// A call that ought to be refused while an order is open.
    fn disturb(&mut self, order: Order) -> Record {
        let Ledger { loans, held, .. } = &self.ledger;
        match self.random.below(8) {
            0 => self.ask(),
            1 => self.odd_ask(),
            2 => self.stale(),
            3 if !loans.is_empty() => Record::Return(self.random.pick(loans)),
            4 if self.settings.is_free_list() => Record::CleanUp,
            5 | 6 if !held.is_empty() => {
                let memory = self.random.pick(held);
                delivery(self.random.pick(&OUTCOMES), memory)
            }
            _ => {
                let memory = self.free_memory();
                delivery(self.outcome(|outcome| !outcome.suits(order.map)), memory)
            }
        }
    }

    /// A call that ought to be refused while no order is open.
    fn offend(&mut self) -> Record {
        match self.random.below(4) {
            0 => self.odd_ask(),
            1 => {
                let memory = self.free_memory();
                delivery(self.random.pick(&OUTCOMES), memory)
            }
            _ => self.stale(),
        }
    }

    /// A return of what isn't on loan: a block returned before, or a loan with a word altered.
    fn stale(&mut self) -> Record {
        let Ledger { loans, returned, .. } = &self.ledger;
        if !returned.is_empty() && self.random.percent(50) {
            let recent = returned.len().saturating_sub(8);
            return Record::Return(self.random.pick(&returned[recent..]));
        }
        if loans.is_empty() {
            return Record::Return(Block { serial: 0, chunk: 0, offset: 0, size: 0 });
        }
        let mut block = self.random.pick(loans);
        let word = match self.random.below(4) {
            0 => &mut block.serial,
            1 => &mut block.chunk,
            2 => &mut block.offset,
            _ => &mut block.size,
        };
        let step = self.random.pick(&[1, u64::MAX, 1 << 32, *word]);
        *word = word.wrapping_add(step);
        Record::Return(block)
    }
}

/// A delivery; no memory comes with a refusal.
fn delivery(outcome: Outcome, memory: u64) -> Record {
    let memory = if outcome.is_refusal() { 0 } else { memory };
    Record::Deliver { outcome, memory }
}
