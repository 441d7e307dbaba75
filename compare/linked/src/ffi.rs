//! The archives' functions, and safe calls of them over slices.
//!
//! A slice goes as two arguments, where it begins and how many words it has. Both engines have
//! five tables and lend them in one order: head, loans, chunks, index and room, which is a free
//! list's regions and a buddy's tree. So one type serves each call of both. A table that a call
//! only reads is lent to be written like the others.

/// A store's tables, in that order.
pub type Tables = [Vec<u64>; 5];
/// The words of an answer.
pub type Answer = [u64; 6];
/// Serial, chunk, offset and size of a block.
pub type BlockWords = [u64; 4];
/// What came of an order, the memory's number, and how its mapping went.
pub type OutcomeWords = [u64; 3];

type Read = *const u64;
type Lent = *mut u64;

/// The calls that both engines have.
#[rustfmt::skip]
pub struct Engine {
    set_up: unsafe extern "C" fn(
        Read, usize, Lent, usize, Lent, usize, Lent, usize, Lent, usize, Lent, usize, Lent, usize,
    ),
    ask: unsafe extern "C" fn(
        Read, usize, Lent, usize, u64, u64,
        Lent, usize, Lent, usize, Lent, usize, Lent, usize, Lent, usize, Lent, usize,
    ),
    deliver: unsafe extern "C" fn(
        Read, usize, Lent, usize, u64, u64, u64,
        Lent, usize, Lent, usize, Lent, usize, Lent, usize, Lent, usize, Lent, usize,
    ),
    take_back: unsafe extern "C" fn(
        Read, usize, Lent, usize, u64, u64, u64, u64,
        Lent, usize, Lent, usize, Lent, usize, Lent, usize, Lent, usize, Lent, usize, Lent, usize,
    ),
}

/// The engines of one set of archives.
pub struct Engines {
    pub list: &'static Engine,
    pub buddy: &'static Engine,
}

macro_rules! engine {
    ($engine:ident: $set_up:ident, $ask:ident, $deliver:ident, $take_back:ident) => {
        #[rustfmt::skip]
        extern "C" {
            fn $set_up(
                settings: Read, _: usize, a: Lent, _: usize, b: Lent, _: usize, c: Lent, _: usize,
                d: Lent, _: usize, e: Lent, _: usize, answer: Lent, _: usize,
            );
            fn $ask(
                settings: Read, _: usize, account: Lent, _: usize, size: u64, mask: u64,
                a: Lent, _: usize, b: Lent, _: usize, c: Lent, _: usize, d: Lent, _: usize,
                e: Lent, _: usize, answer: Lent, _: usize,
            );
            fn $deliver(
                settings: Read, _: usize, account: Lent, _: usize,
                what: u64, memory: u64, mapping: u64,
                a: Lent, _: usize, b: Lent, _: usize, c: Lent, _: usize, d: Lent, _: usize,
                e: Lent, _: usize, answer: Lent, _: usize,
            );
            fn $take_back(
                settings: Read, _: usize, account: Lent, _: usize,
                serial: u64, chunk: u64, offset: u64, size: u64,
                a: Lent, _: usize, b: Lent, _: usize, c: Lent, _: usize, d: Lent, _: usize,
                e: Lent, _: usize, list: Lent, _: usize, answer: Lent, _: usize,
            );
        }

        static $engine: Engine =
            Engine { set_up: $set_up, ask: $ask, deliver: $deliver, take_back: $take_back };
    };
}

engine!(
    LIST: tibrezkam_list_set_up,
    tibrezkam_list_ask,
    tibrezkam_list_deliver,
    tibrezkam_list_return
);
engine!(
    BUDDY: tibrezkam_buddy_set_up,
    tibrezkam_buddy_ask,
    tibrezkam_buddy_deliver,
    tibrezkam_buddy_return
);

// The same of the copies for timing: their test of soundness says yes to all, or all their gate does.
#[cfg(feature = "timing")]
engine!(
    UNTESTED_LIST: untested3_list_set_up,
    untested3_list_ask,
    untested3_list_deliver,
    untested3_list_return
);
#[cfg(feature = "timing")]
engine!(
    UNTESTED_BUDDY: untested3_buddy_set_up,
    untested3_buddy_ask,
    untested3_buddy_deliver,
    untested3_buddy_return
);
#[cfg(feature = "timing")]
engine!(
    UNGATED_LIST: ungated14_list_set_up,
    ungated14_list_ask,
    ungated14_list_deliver,
    ungated14_list_return
);
#[cfg(feature = "timing")]
engine!(
    UNGATED_BUDDY: ungated14_buddy_set_up,
    ungated14_buddy_ask,
    ungated14_buddy_deliver,
    ungated14_buddy_return
);

pub static SHIPPED: Engines = Engines { list: &LIST, buddy: &BUDDY };
#[cfg(feature = "timing")]
pub static UNTESTED: Engines = Engines { list: &UNTESTED_LIST, buddy: &UNTESTED_BUDDY };
#[cfg(feature = "timing")]
pub static UNGATED: Engines = Engines { list: &UNGATED_LIST, buddy: &UNGATED_BUDDY };

// A free list's only.
#[rustfmt::skip]
extern "C" {
    fn tibrezkam_list_clean_up(
        settings: Read, _: usize, account: Lent, _: usize,
        head: Lent, _: usize, loans: Lent, _: usize, chunks: Lent, _: usize,
        index: Lent, _: usize, regions: Lent, _: usize, list: Lent, _: usize,
        answer: Lent, _: usize,
    );
}

// The ranking, which is of no store.
#[rustfmt::skip]
extern "C" {
    fn tibrezkam_rank(
        types: *const u32, _: usize, rows: Lent, _: usize, answer: Lent, _: usize,
    );
}

// Each slice is borrowed for the whole call and no two of them overlap, which is all that the
// functions need: lengths and words of any kind have an answer.
#[rustfmt::skip]
impl Engine {
    pub fn set_up(&self, settings: &[u64], tables: &mut Tables, answer: &mut Answer) {
        let [a, b, c, d, e] = tables;
        unsafe {
            (self.set_up)(
                settings.as_ptr(), settings.len(),
                a.as_mut_ptr(), a.len(), b.as_mut_ptr(), b.len(), c.as_mut_ptr(), c.len(),
                d.as_mut_ptr(), d.len(), e.as_mut_ptr(), e.len(),
                answer.as_mut_ptr(), answer.len(),
            )
        }
    }

    pub fn ask(
        &self,
        settings: &[u64],
        account: &mut [u64],
        size: u64,
        mask: u64,
        tables: &mut Tables,
        answer: &mut Answer,
    ) {
        let [a, b, c, d, e] = tables;
        unsafe {
            (self.ask)(
                settings.as_ptr(), settings.len(), account.as_mut_ptr(), account.len(),
                size, mask,
                a.as_mut_ptr(), a.len(), b.as_mut_ptr(), b.len(), c.as_mut_ptr(), c.len(),
                d.as_mut_ptr(), d.len(), e.as_mut_ptr(), e.len(),
                answer.as_mut_ptr(), answer.len(),
            )
        }
    }

    pub fn deliver(
        &self,
        settings: &[u64],
        account: &mut [u64],
        [what, memory, mapping]: OutcomeWords,
        tables: &mut Tables,
        answer: &mut Answer,
    ) {
        let [a, b, c, d, e] = tables;
        unsafe {
            (self.deliver)(
                settings.as_ptr(), settings.len(), account.as_mut_ptr(), account.len(),
                what, memory, mapping,
                a.as_mut_ptr(), a.len(), b.as_mut_ptr(), b.len(), c.as_mut_ptr(), c.len(),
                d.as_mut_ptr(), d.len(), e.as_mut_ptr(), e.len(),
                answer.as_mut_ptr(), answer.len(),
            )
        }
    }

    pub fn take_back(
        &self,
        settings: &[u64],
        account: &mut [u64],
        [serial, chunk, offset, size]: BlockWords,
        tables: &mut Tables,
        list: &mut [u64],
        answer: &mut Answer,
    ) {
        let [a, b, c, d, e] = tables;
        unsafe {
            (self.take_back)(
                settings.as_ptr(), settings.len(), account.as_mut_ptr(), account.len(),
                serial, chunk, offset, size,
                a.as_mut_ptr(), a.len(), b.as_mut_ptr(), b.len(), c.as_mut_ptr(), c.len(),
                d.as_mut_ptr(), d.len(), e.as_mut_ptr(), e.len(),
                list.as_mut_ptr(), list.len(), answer.as_mut_ptr(), answer.len(),
            )
        }
    }
}

/// A free list's clean-up.
#[rustfmt::skip]
pub fn clean_up(
    settings: &[u64],
    account: &mut [u64],
    tables: &mut Tables,
    list: &mut [u64],
    answer: &mut Answer,
) {
    let [a, b, c, d, e] = tables;
    // As above.
    unsafe {
        tibrezkam_list_clean_up(
            settings.as_ptr(), settings.len(), account.as_mut_ptr(), account.len(),
            a.as_mut_ptr(), a.len(), b.as_mut_ptr(), b.len(), c.as_mut_ptr(), c.len(),
            d.as_mut_ptr(), d.len(), e.as_mut_ptr(), e.len(),
            list.as_mut_ptr(), list.len(), answer.as_mut_ptr(), answer.len(),
        )
    }
}

/// The ranking of memory types by their property words.
#[rustfmt::skip]
pub fn rank(types: &[u32], rows: &mut [u64], answer: &mut Answer) {
    // As above.
    unsafe {
        tibrezkam_rank(
            types.as_ptr(), types.len(), rows.as_mut_ptr(), rows.len(),
            answer.as_mut_ptr(), answer.len(),
        )
    }
}
