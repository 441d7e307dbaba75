//! Makes a tape smaller while two implementations still differ on it.

use {
    crate::{
        answer::Answer,
        counter::Counter,
        settings::Settings,
        tape::{write_header, write_record, Block, Reader, Record},
    },
    std::time::{Duration, Instant},
};

/// How long a tape is worked on, at most.
const PATIENCE: Duration = Duration::from_secs(20);
/// Longer tapes are left as they are.
const RECORDS: usize = 10_000;

/// A call. A return names the call that lent its block, because serials and places change when
/// earlier calls are left out.
#[derive(Clone, Copy)]
enum Call {
    Plain(Record),
    ReturnOf(usize),
}

/// Calls by their numbers on the first tape.
type Calls = Vec<(usize, Call)>;

/// The smallest tape that can be had by leaving out calls, and what can't be read at its end.
pub fn smallest(tape: &[u8], differs: impl Fn(&[u8]) -> bool) -> Vec<u8> {
    let Some((settings, mut calls)) = read(tape).filter(|(_, calls)| calls.len() < RECORDS) else {
        return tape.into();
    };
    let began = Instant::now();
    let mut step = calls.len();
    while step > 0 && began.elapsed() < PATIENCE {
        let before = calls.len();
        let mut at = 0;
        while at < calls.len() && began.elapsed() < PATIENCE {
            let mut fewer = calls.clone();
            fewer.drain(at..calls.len().min(at + step));
            if differs(&write(settings, &fewer)) {
                calls = fewer;
            } else {
                at += step;
            }
        }
        if step > 1 || calls.len() == before {
            step /= 2;
        }
    }
    let small = write(settings, &calls);
    if differs(&small) {
        small
    } else {
        tape.into()
    }
}

fn read(tape: &[u8]) -> Option<(Settings, Calls)> {
    let mut reader = Reader::new(tape);
    let settings = Settings::read(&reader.header()?)?;
    let mut counter = Counter::open(settings);
    let mut lent: Vec<(usize, Block)> = Vec::new();
    let mut calls = Vec::new();
    while let Some(Ok(record)) = reader.record() {
        if !settings.allows(&record) {
            break;
        }
        let lender = lent.iter().find(|(_, block)| record == Record::Return(*block));
        calls.push(match lender {
            Some((number, _)) => (calls.len(), Call::ReturnOf(*number)),
            None => (calls.len(), Call::Plain(record)),
        });
        if let Answer::Block(block) = counter.take(&record) {
            lent.push((calls.len() - 1, block));
        }
    }
    counter.close(None);
    Some((settings, calls))
}

/// The tape of these calls; a return whose block wasn't lent is left out.
fn write(settings: Settings, calls: &Calls) -> Vec<u8> {
    let mut tape = Vec::new();
    write_header(&mut tape, &settings.header());
    let mut counter = Counter::open(settings);
    let mut lent: Vec<(usize, Block)> = Vec::new();
    for &(number, call) in calls {
        let record = match call {
            Call::Plain(record) => Some(record),
            Call::ReturnOf(lender) => {
                let block = lent.iter().find(|(number, _)| *number == lender);
                block.map(|(_, block)| Record::Return(*block))
            }
        };
        let Some(record) = record else { continue };
        write_record(&mut tape, &record);
        if let Answer::Block(block) = counter.take(&record) {
            lent.push((number, block));
        }
    }
    counter.close(None);
    tape
}
