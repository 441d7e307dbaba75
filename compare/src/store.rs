//! One store of the crate, called as document 01 says: ask, deliver, return, clean up.
//!
//! The crate calls the device inside `alloc`. An ask runs it with a device that gives nothing,
//! which leaves the crate as an open order does; a delivery runs it again with the outcome.
//! Refusals that the crate doesn't know are decided here, in the paper's order of tests.

use crate::{
    account::{Account, OpenOrder},
    answer::{Answer, Order, Refusal},
    device::{Call, Script},
    engine::{CrateBlock, Engine},
    error::AllocationError,
    settings::{is_alignment_mask, Settings, HEAP_LIMIT},
    tape::{Block, Outcome, Record},
};

struct Loan {
    block: Block,
    of_crate: CrateBlock,
}

/// A store, and what its caller is owed: loans by serial, and the memory numbers it holds.
pub(crate) struct Store {
    settings: Settings,
    engine: Engine,
    loans: Vec<Loan>,
    held: Vec<u64>,
    serials: u64,
}

impl Store {
    pub fn set_up(settings: Settings) -> Store {
        Store {
            settings,
            engine: Engine::set_up(&settings),
            loans: Vec::new(),
            held: Vec::new(),
            serials: 0,
        }
    }

    /// One call. A clean-up is for free lists only.
    pub fn take(&mut self, account: &mut Account, record: &Record) -> Answer {
        let result = match *record {
            Record::Ask { size, mask } => self.ask(account, size, mask),
            Record::Deliver { outcome, memory } => self.deliver(account, outcome, memory),
            Record::Return(block) => self.take_back(account, block),
            Record::CleanUp => self.clean_up(account),
        };
        self.check_held();
        account.check();
        result.into()
    }

    /// Tests 2, 5, 6, 8, 10, 9; serials and chunk numbers aren't spent within a tape.
    fn ask(&mut self, account: &mut Account, size: u64, mask: u64) -> Result<Answer, Refusal> {
        no_open_order(account)?;
        if !is_alignment_mask(mask) {
            return Err(Refusal::Mask);
        }
        let need = self.engine.need(&self.settings, size, mask)?;
        if self.loans.len() == self.settings.loans {
            return Err(Refusal::LoansFull);
        }
        if need.chunk.is_some() && self.held.len() == self.settings.chunks {
            return Err(Refusal::ChunksFull);
        }
        if !self.engine.has_pairs(&self.settings, need.new_pairs) {
            return Err(Refusal::PairsFull);
        }
        if need.chunk.is_some_and(|chunk| account.heap.used() + chunk > HEAP_LIMIT) {
            return Err(Refusal::Count);
        }
        self.place(account, size, mask, need.chunk)
    }

    /// Runs the crate's call; what it does must be what its state promised.
    fn place(
        &mut self,
        account: &mut Account,
        size: u64,
        mask: u64,
        chunk: Option<u64>,
    ) -> Result<Answer, Refusal> {
        account.device.begin(Script::TakeOrder);
        let result = self.engine.alloc(account, size, mask);
        assert_eq!(result.is_err(), chunk.is_some(), "a chunk is needed or not");
        match result {
            Ok(block) => Ok(self.lend(block)),
            Err(AllocationError::TooManyObjects) => Err(Refusal::Objects),
            Err(_) => {
                let calls = account.device.calls();
                let [Call::Allocate { size: ordered, memory_type }] = calls[..] else {
                    panic!("an order is one call to the device, not {calls:?}");
                };
                assert_eq!(Some(ordered), chunk, "the order is of the size needed");
                let map = self.settings.maps();
                let told = Order { size: ordered, memory_type, map };
                let store = self.settings.store;
                account.open = Some(OpenOrder { store, size, mask, told });
                Ok(Answer::Order(told))
            }
        }
    }

    /// Tests 2, 13, 11, 12.
    fn deliver(
        &mut self,
        account: &mut Account,
        outcome: Outcome,
        memory: u64,
    ) -> Result<Answer, Refusal> {
        let store = self.settings.store;
        let open = account.open.filter(|open| open.store == store);
        let open = open.ok_or(Refusal::NoOrder)?;
        if !outcome.is_refusal() && self.held.contains(&memory) {
            return Err(Refusal::MemoryHeld);
        }
        if !outcome.suits(open.told.map) {
            return Err(Refusal::OutcomeUnsuited);
        }

        account.open = None;
        account.device.begin(Script::Deliver { outcome, memory });
        let result = self.engine.alloc(account, open.size, open.mask);
        check_delivery(&account.device.calls(), &open.told, outcome, memory);
        match result {
            Ok(block) => {
                self.held.push(memory);
                Ok(self.lend(block))
            }
            Err(error) => refused_delivery(error, &account.device.freed()),
        }
    }

    /// Tests 2, 7.
    fn take_back(&mut self, account: &mut Account, block: Block) -> Result<Answer, Refusal> {
        no_open_order(account)?;
        let loan = self.loans.iter().position(|loan| loan.block == block);
        let loan = self.loans.remove(loan.ok_or(Refusal::Stale)?);
        account.device.begin(Script::Rest);
        self.engine.dealloc(account, loan.of_crate);
        Ok(self.released(account))
    }

    /// Test 2.
    fn clean_up(&mut self, account: &mut Account) -> Result<Answer, Refusal> {
        no_open_order(account)?;
        account.device.begin(Script::Rest);
        self.engine.cleanup(account);
        Ok(self.released(account))
    }

    /// Puts a block of the crate on loan.
    fn lend(&mut self, of_crate: CrateBlock) -> Answer {
        self.serials += 1;
        let (chunk, offset, size) = of_crate.place();
        let serial = self.serials;
        let block = Block { serial, chunk, offset, size };
        self.loans.push(Loan { block, of_crate });
        Answer::Block(block)
    }

    /// The memory that the crate handed back in this call is no longer held.
    fn released(&mut self, account: &Account) -> Answer {
        let freed = account.device.freed();
        self.held.retain(|memory| !freed.contains(memory));
        Answer::Released(freed)
    }

    /// The memory held, as told by the device, agrees with the crate where the crate keeps count.
    fn check_held(&self) {
        if let Engine::Buddy(engine) = &self.engine {
            assert_eq!(engine.chunks_held(), self.held.len());
        }
    }

    /// Returns every loan and cleans up, so that the crate's engine ends empty.
    pub fn close(mut self, account: &mut Account) {
        account.open = None;
        while let Some(loan) = self.loans.last() {
            let block = loan.block;
            self.take(account, &Record::Return(block));
        }
        self.take(account, &Record::CleanUp);
        assert!(self.held.is_empty(), "a store without loans holds memory");
    }
}

fn no_open_order(account: &Account) -> Result<(), Refusal> {
    match account.open {
        Some(_) => Err(Refusal::OrderOpen),
        None => Ok(()),
    }
}

/// A delivery orders again what was told, and maps exactly when that was told.
fn check_delivery(calls: &[Call], told: &Order, outcome: Outcome, memory: u64) {
    let allocate = Call::Allocate { size: told.size, memory_type: told.memory_type };
    let map = Call::Map { memory, size: told.size };
    assert_eq!(calls[0], allocate);
    assert_eq!(calls.contains(&map), told.map && !outcome.is_refusal());
}

fn refused_delivery(error: AllocationError, freed: &[u64]) -> Result<Answer, Refusal> {
    let refusal = match error {
        AllocationError::OutOfDeviceMemory => Refusal::Device,
        AllocationError::OutOfHostMemory => Refusal::Host,
        other => panic!("a delivery ends in {other:?}"),
    };
    match freed {
        [] => Err(refusal),
        [memory] => Ok(Answer::RefusedFree(refusal, *memory)),
        _ => panic!("a delivery frees {freed:?}"),
    }
}
