//! The counter: the calls of a store, with their tests in 01's order. What
//! differs between the engines stands behind the trait `Engine`.

use super::account::Account;
use super::answer::{Answer, Refusal};
use super::buddy::Buddy;
use super::freelist::FreeList;
use super::tape::{is_mask, EngineSettings, Outcome, Record, Settings};
use super::Fault;

/// A size and an alignment mask, as asked.
#[derive(Clone, Copy)]
pub struct Ask {
    pub size: u64,
    pub mask: u64,
}

/// Where a block lies.
#[derive(Clone, Copy, PartialEq, Eq)]
pub struct Place {
    pub chunk: u64,
    pub offset: u64,
    pub size: u64,
}

/// "A block carries serial, chunk, offset, size."
#[derive(Clone, Copy, PartialEq, Eq)]
struct Loan {
    serial: u64,
    place: Place,
}

/// Device memory that a store holds.
#[derive(Clone, Copy)]
pub struct Chunk {
    pub memory: u64,
    pub size: u64,
}

/// An order for a chunk, with what the order raises: a buddy store's levels or
/// a free list's chunk size, as they are to be.
#[derive(Clone, Copy, PartialEq, Eq)]
pub struct Order {
    pub size: u64,
    pub raised: u64,
}

/// What the search for an ask's place has found.
pub struct Need {
    /// The order to give if no free place fits.
    pub order: Option<Order>,
    /// "a level that needs a new pair has none".
    pub pair_missing: bool,
}

/// An order that is open: the ask to test again, the order told, and levels or
/// chunk size before it.
#[derive(Clone, Copy)]
struct OpenOrder {
    ask: Ask,
    order: Order,
    before: u64,
}

/// What the two engines do each in their own way.
pub trait Engine {
    /// Round the ask and search a place for it; `None` is refusal 6.
    fn search(&self, ask: Ask) -> Option<Need>;
    /// Take the place that `search` has found in the chunks held.
    fn take(&mut self, ask: Ask) -> Place;
    /// Take a place in a chunk just delivered.
    fn take_from_new(&mut self, chunk: Chunk, ask: Ask) -> Place;
    /// Free a place that was on loan; gives the chunks released, in list order.
    fn give_back(&mut self, place: Place) -> Vec<Chunk>;
    /// Release every wholly free chunk, in list order.
    fn clean_up(&mut self) -> Vec<Chunk>;
    fn chunk_count(&self) -> usize;
    fn holds(&self, memory: u64) -> bool;
    /// Whether free-list chunk numbers, which are never given twice, are spent.
    fn numbers_spent(&self) -> bool;
    /// The levels or the chunk size now.
    fn raised(&self) -> u64;
    fn set_raised(&mut self, raised: u64);
    /// "9 in a buddy store leaves the levels grown as the ask needs".
    fn raised_by_nine(&self) -> bool;
    /// "only a free list's 'map failed' gives the memory back".
    fn frees_after_map_failed(&self) -> bool;
}

/// One store with its account.
pub struct Store {
    pub account: Account,
    engine: Box<dyn Engine>,
    memory_type: u64,
    map: bool,
    loan_limit: usize,
    chunk_limit: usize,
    loans: Vec<Loan>,
    /// Serials given out so far; "Serials count up from 1".
    serials: u64,
    open: Option<OpenOrder>,
    fault: Fault,
}

impl Store {
    pub fn set_up(settings: &Settings, fault: Fault) -> Store {
        let atom_mask = settings.atom_mask;
        let engine: Box<dyn Engine> = match settings.engine {
            EngineSettings::Buddy {
                minimal,
                initial,
                pairs,
            } => Box::new(Buddy::new(atom_mask, minimal, initial, pairs, fault)),
            EngineSettings::FreeList { start, last } => {
                Box::new(FreeList::new(atom_mask, start, last, fault))
            }
        };
        Store {
            account: Account::new(settings.objects),
            engine,
            memory_type: settings.memory_type,
            map: settings.host_visible,
            loan_limit: settings.loan_limit,
            chunk_limit: settings.chunk_limit,
            loans: Vec::new(),
            serials: 0,
            open: None,
            fault,
        }
    }

    /// One record's call. "2 ORDER: an order is open, on an ask, return or
    /// clean-up; or a delivery when none is open".
    pub fn call(&mut self, record: Record) -> Answer {
        match (record, self.open) {
            (Record::Deliver { outcome, memory }, Some(open)) => {
                self.deliver(open, outcome, memory)
            }
            (Record::Deliver { .. }, None) | (_, Some(_)) => Answer::Refused(Refusal::Order),
            (Record::Ask { size, mask }, None) => self.ask(Ask { size, mask }),
            (
                Record::Return {
                    serial,
                    chunk,
                    offset,
                    size,
                },
                None,
            ) => self.take_return(Loan {
                serial,
                place: Place {
                    chunk,
                    offset,
                    size,
                },
            }),
            (Record::CleanUp, None) => {
                let chunks = self.engine.clean_up();
                self.release(chunks)
            }
        }
    }

    fn ask(&mut self, ask: Ask) -> Answer {
        let need = match self.search(ask) {
            Ok(need) => need,
            Err(refusal) => return Answer::Refused(refusal),
        };
        match (self.refusal(&need), need.order) {
            (None, None) => {
                let place = self.engine.take(ask);
                self.lend(place)
            }
            (None, Some(order)) => self.open_order(ask, order),
            (Some(refusal), order) => self.refuse_ask(refusal, order),
        }
    }

    /// An order raises levels or chunk size at once, before its delivery.
    fn open_order(&mut self, ask: Ask, order: Order) -> Answer {
        self.open = Some(OpenOrder {
            ask,
            order,
            before: self.engine.raised(),
        });
        self.engine.set_raised(order.raised);
        Answer::Order {
            size: order.size,
            memory_type: self.memory_type,
            map: self.map,
        }
    }

    /// "A refusal gives its number and changes nothing, except: 9 in a buddy
    /// store leaves the levels grown as the ask needs".
    fn refuse_ask(&mut self, refusal: Refusal, order: Option<Order>) -> Answer {
        let raises = refusal == Refusal::Objects && self.engine.raised_by_nine();
        if let (true, Some(order)) = (raises && self.fault != Fault::NineKeepsLevels, order) {
            self.engine.set_raised(order.raised);
        }
        Answer::Refused(refusal)
    }

    /// Tests 5 and 6, and the search that the later tests look at.
    fn search(&self, ask: Ask) -> Result<Need, Refusal> {
        if !is_mask(ask.mask, 40) {
            return Err(Refusal::Mask);
        }
        self.engine.search(ask).ok_or(Refusal::Size)
    }

    /// "then 5, 6, 8, 10, 9 for an ask": the last three.
    fn refusal(&self, need: &Need) -> Option<Refusal> {
        let chunks_full = self.chunks_full() && self.fault != Fault::FullAfterOrder;
        let full = self.loans.len() == self.loan_limit
            || need.order.is_some() && chunks_full
            || need.pair_missing;
        let count = self.serials == u64::MAX
            || need.order.is_some_and(|order| {
                !self.account.can_count(order.size) || self.engine.numbers_spent()
            });
        let objects = need.order.is_some() && !self.account.has_object();
        let mut tests = [
            (full, Refusal::Full),
            (count, Refusal::Count),
            (objects, Refusal::Objects),
        ];
        if self.fault == Fault::NineBeforeEight {
            tests.rotate_right(1);
        }
        tests
            .into_iter()
            .find(|(refused, _)| *refused)
            .map(|(_, refusal)| refusal)
    }

    fn chunks_full(&self) -> bool {
        self.engine.chunk_count() == self.chunk_limit
    }

    /// "13, 11, 12 for a delivery"; the heap is charged and the object counted
    /// as soon as there is memory, whatever its mapping came to.
    fn deliver(&mut self, open: OpenOrder, outcome: Outcome, memory: u64) -> Answer {
        if !self.still_leads_to(open) {
            return Answer::Refused(Refusal::Torn);
        }
        let held = outcome.brings_memory() && self.engine.holds(memory);
        if held || !outcome.suits(self.map) {
            return Answer::Refused(Refusal::Delivery);
        }
        self.open = None;
        if outcome.brings_memory() {
            self.account.charge(open.order.size);
        }
        match outcome {
            Outcome::Mapped | Outcome::NotWanted => self.accept(open, memory),
            Outcome::MapOutOfDevice | Outcome::DeviceRefusal => self.fail(open, Refusal::Device),
            Outcome::MapFailed if self.engine.frees_after_map_failed() => {
                // "a give-back is a release": both running totals have risen.
                self.account.release(open.order.size);
                self.fail(open, Refusal::Host);
                Answer::RefusedFree(Refusal::Host, memory)
            }
            Outcome::MapFailed | Outcome::MapOutOfHost | Outcome::HostRefusal => {
                self.fail(open, Refusal::Host)
            }
        }
    }

    /// "on delivery tests 5 to 10 on the kept ask no longer lead to that order"
    /// is refusal 3.
    fn still_leads_to(&self, open: OpenOrder) -> bool {
        self.search(open.ask)
            .is_ok_and(|need| need.order == Some(open.order) && self.refusal(&need).is_none())
    }

    /// A good delivery: the chunk is held and the kept ask served from it.
    fn accept(&mut self, open: OpenOrder, memory: u64) -> Answer {
        if self.fault == Fault::FullAfterOrder && self.chunks_full() {
            // "Testing FULL after the order: device memory would be stranded."
            return Answer::Refused(Refusal::Full);
        }
        let chunk = Chunk {
            memory,
            size: open.order.size,
        };
        let place = self.engine.take_from_new(chunk, open.ask);
        self.lend(place)
    }

    /// "11 and 12 close the order and leave the levels or chunk size as the
    /// order raised them": without a fault nothing is left to do here.
    fn fail(&mut self, open: OpenOrder, refusal: Refusal) -> Answer {
        match self.fault {
            Fault::ChunkSizeNotKept => self.engine.set_raised(open.before),
            Fault::FailedSpendsSerial => self.serials += 1,
            _ => {}
        }
        Answer::Refused(refusal)
    }

    fn lend(&mut self, place: Place) -> Answer {
        self.serials += 1;
        self.loans.push(Loan {
            serial: self.serials,
            place,
        });
        Answer::Block {
            serial: self.serials,
            place,
        }
    }

    /// "7 STALE: no loan has this serial, chunk, offset and size".
    fn take_return(&mut self, slip: Loan) -> Answer {
        let any_serial = self.fault == Fault::StaleByPlace;
        let matches =
            |loan: &Loan| loan.place == slip.place && (any_serial || loan.serial == slip.serial);
        let Some(found) = self.loans.iter().position(matches) else {
            return Answer::Refused(Refusal::Stale);
        };
        let loan = self.loans.swap_remove(found);
        let chunks = self.engine.give_back(loan.place);
        self.release(chunks)
    }

    fn release(&mut self, chunks: Vec<Chunk>) -> Answer {
        for chunk in &chunks {
            self.account.release(chunk.size);
        }
        Answer::Released(chunks.iter().map(|chunk| chunk.memory).collect())
    }
}
