//! Stores over one account, and their answers for a tape, as the oracle writes them.

use {
    crate::{account::Account, ffi::SHIPPED, store::Store},
    compare::{
        counter::SETUP_REFUSED,
        shelf::read_headers,
        tape::{word, Header, Reader, Record},
    },
    std::fmt::Write,
};

/// The stores, their account, and the answers so far.
struct Shelf {
    account: Account,
    headers: Vec<Header>,
    stores: Vec<Store>,
    text: String,
    records: u64,
}

/// The answers for a tape of one store.
pub fn answers_of_one(tape: &[u8]) -> String {
    answers(tape, false)
}

/// The answers for a tape of several stores; each line begins with the store's place.
pub fn answers_of_several(tape: &[u8]) -> String {
    answers(tape, true)
}

fn answers(tape: &[u8], several: bool) -> String {
    let mut reader = Reader::new(tape);
    let headers = match several {
        true => read_headers(&mut reader),
        false => reader.header().map(|header| vec![header]),
    };
    let mut shelf = match headers.ok_or(1).and_then(Shelf::open) {
        Ok(shelf) => shelf,
        Err(1) => return SETUP_REFUSED.into(),
        Err(number) => return format!("setup refused {number}\n"),
    };
    let first = reader.position();
    loop {
        let position = reader.position() - first;
        let next = match several {
            true => reader.tagged_record(),
            false => reader.record().map(|record| record.map(|record| (0, record))),
        };
        match next {
            None => return shelf.close(None),
            Some(Ok((place, record))) if shelf.allows(place, &record) => {
                if several {
                    shelf.text += &format!("{place} ");
                }
                shelf.take(place, &record);
            }
            Some(_) => return shelf.close(Some(position)),
        }
    }
}

impl Shelf {
    /// Sets up the stores; else the number of the refusal.
    fn open(headers: Vec<Header>) -> Result<Shelf, u64> {
        let same = |at: usize| headers.iter().all(|header| header[at] == headers[0][at]);
        if ![word::HEAP, word::HEAP_SIZE, word::OBJECTS].into_iter().all(same) {
            return Err(1);
        }
        let stores = headers.iter().map(|header| Store::open(&SHIPPED, header));
        let stores = stores.collect::<Result<_, _>>()?;
        let account = Account::new(&headers[0]).ok_or(1u64)?;
        Ok(Shelf { account, headers, stores, text: String::new(), records: 0 })
    }

    /// Whether there is such a store and it takes such a call: a clean-up is for free lists.
    fn allows(&self, place: usize, record: &Record) -> bool {
        let engine = self.headers.get(place).map(|header| header[word::ENGINE]);
        engine.is_some_and(|engine| engine == 2 || *record != Record::CleanUp)
    }

    /// One call to the store at a place, with its line of text.
    fn take(&mut self, place: usize, record: &Record) {
        self.text += &self.stores[place].take(&mut self.account, record);
        self.account.write_state(&mut self.text);
        self.records += 1;
    }

    /// Ends the answers.
    fn close(mut self, stopped: Option<usize>) -> String {
        self.account.write_totals(&mut self.text);
        match stopped {
            Some(position) => writeln!(self.text, "stopped {position}"),
            None => writeln!(self.text, "end {}", self.records),
        }
        .expect("a string takes all");
        self.text
    }
}
