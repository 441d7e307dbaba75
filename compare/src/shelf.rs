//! Several stores of the crate over one account.
//!
//! The tape of a shelf is the number of stores as a word, a header for each store, and records as
//! on a store's tape, each after a byte that names its store by place. Each line of the answers
//! begins with that place. The headers agree in heap number, heap size and objects, for that is
//! the account that the stores share.

use {
    crate::{
        account::Account,
        answer::Answer,
        counter::SETUP_REFUSED,
        settings::Settings,
        store::Store,
        tape::{Header, Reader, Record},
    },
    std::fmt::Write,
};

/// Stores on a shelf, at most.
pub const STORES: u64 = 4;

/// The stores, their account, and the answers so far.
pub struct Shelf {
    account: Account,
    stores: Vec<Store>,
    text: String,
    records: u64,
}

impl Shelf {
    pub fn open(settings: &[Settings]) -> Shelf {
        Shelf {
            account: Account::new(&settings[0]),
            stores: settings.iter().map(|&settings| Store::set_up(settings)).collect(),
            text: String::new(),
            records: 0,
        }
    }

    /// One call to the store at a place, with its line of text.
    pub fn take(&mut self, place: usize, record: &Record) -> Answer {
        let answer = self.stores[place].take(&mut self.account, record);
        write!(self.text, "{place} {answer}").expect("a string takes all");
        self.account.write_state(&mut self.text);
        self.records += 1;
        answer
    }

    /// Ends the answers.
    pub fn close(mut self, stopped: Option<usize>) -> String {
        self.account.write_totals(&mut self.text);
        match stopped {
            Some(position) => writeln!(self.text, "stopped {position}"),
            None => writeln!(self.text, "end {}", self.records),
        }
        .expect("a string takes all");
        self.stores.into_iter().for_each(|store| store.close(&mut self.account));
        self.text
    }
}

/// Reads the front of a shelf's tape: the headers, if all is in order.
pub fn read_headers(reader: &mut Reader) -> Option<Vec<Header>> {
    let count = reader.count()?;
    (2..=STORES).contains(&count).then(|| (0..count).map(|_| reader.header()).collect())?
}

/// The settings of the headers, if they are within the table and share one account.
pub fn read_settings(headers: &[Header]) -> Option<Vec<Settings>> {
    let settings: Option<Vec<Settings>> = headers.iter().map(Settings::read).collect();
    let account = |settings: &Settings| (settings.heap, settings.heap_size, settings.objects);
    settings.filter(|settings| settings.iter().all(|one| account(one) == account(&settings[0])))
}

/// The crate's answers for a shelf's tape.
pub fn answers(tape: &[u8]) -> String {
    let mut reader = Reader::new(tape);
    let headers = read_headers(&mut reader);
    let Some(settings) = headers.and_then(|headers| read_settings(&headers)) else {
        return SETUP_REFUSED.into();
    };
    let mut shelf = Shelf::open(&settings);
    let first = reader.position();
    loop {
        let position = reader.position() - first;
        match reader.tagged_record() {
            None => return shelf.close(None),
            Some(Ok((place, record))) if allows(&settings, place, &record) => {
                shelf.take(place, &record);
            }
            Some(_) => return shelf.close(Some(position)),
        }
    }
}

fn allows(settings: &[Settings], place: usize, record: &Record) -> bool {
    settings.get(place).is_some_and(|settings| settings.allows(record))
}
