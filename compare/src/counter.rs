//! The counter: replays a tape into a fresh store of the crate and writes down each answer.

use {
    crate::{
        account::Account,
        answer::Answer,
        settings::Settings,
        store::Store,
        tape::{Reader, Record, HEADER_BYTES},
    },
    std::fmt::Write,
};

/// The answer to a header outside the table.
pub const SETUP_REFUSED: &str = "setup refused 1\n";

/// A store with an account of its own, and the answers so far.
pub struct Counter {
    account: Account,
    store: Store,
    text: String,
    records: u64,
}

impl Counter {
    pub fn open(settings: Settings) -> Counter {
        Counter {
            account: Account::new(&settings),
            store: Store::set_up(settings),
            text: String::new(),
            records: 0,
        }
    }

    /// One call, with its line of text.
    pub fn take(&mut self, record: &Record) -> Answer {
        let answer = self.store.take(&mut self.account, record);
        write!(self.text, "{answer}").expect("a string takes all");
        self.account.write_state(&mut self.text);
        self.records += 1;
        answer
    }

    /// Ends the answers: totals, and how many records were taken or where the tape stopped.
    pub fn close(mut self, stopped: Option<usize>) -> String {
        self.account.write_totals(&mut self.text);
        match stopped {
            Some(position) => writeln!(self.text, "stopped {position}"),
            None => writeln!(self.text, "end {}", self.records),
        }
        .expect("a string takes all");
        self.store.close(&mut self.account);
        self.text
    }
}

/// The crate's answers for a tape.
pub fn answers(tape: &[u8]) -> String {
    replay(tape, |_, _| {})
}

/// The same, with each call and its answer shown to `note`.
pub fn replay(tape: &[u8], mut note: impl FnMut(&Record, &Answer)) -> String {
    let mut reader = Reader::new(tape);
    let settings = reader.header().and_then(|header| Settings::read(&header));
    let Some(settings) = settings else {
        return SETUP_REFUSED.into();
    };
    let mut counter = Counter::open(settings);
    loop {
        let position = reader.position() - HEADER_BYTES;
        match reader.record() {
            None => return counter.close(None),
            Some(Ok(record)) if settings.allows(&record) => {
                note(&record, &counter.take(&record));
            }
            Some(_) => return counter.close(Some(position)),
        }
    }
}
