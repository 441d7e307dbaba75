//! The recorded tapes. Each day is written out with the answers that document 01 leads to, and
//! recording it runs the crate, so a day on which the crate says otherwise can't be recorded.

mod damage;
mod day;
mod deliveries;
mod placement;
mod refused_asks;
mod returns;
mod setups;
mod stops;
mod worked;

use crate::{counter, generator, shelf};

/// A tape and the crate's answers to it.
pub struct Recorded {
    pub name: String,
    pub tape: Vec<u8>,
    pub answers: String,
}

/// The seed of the recorded random tapes.
const SEED: u64 = 1;
/// Random tapes for each engine.
const RANDOM: u64 = 20;
/// Tapes of several stores.
const SHELVES: u64 = 10;

/// The tapes of one store.
pub fn all() -> Vec<Recorded> {
    let mut all = Vec::new();
    all.extend(worked::days());
    all.extend(placement::days());
    all.extend(refused_asks::days());
    all.extend(deliveries::days());
    all.extend(returns::days());
    all.extend(damage::days());
    all.extend(setups::tapes());
    all.extend(stops::tapes());
    let spent = generator::spent_heap(false);
    all.push(of_tape("refused-10-heap-spent-buddy".into(), spent));
    all.extend((0..2 * RANDOM).map(|number| {
        let engine = if number % 2 == 0 { "buddy" } else { "list" };
        let name = format!("random-{engine}-{:02}", number / 2 + 1);
        of_tape(name, generator::short_tape(SEED, number))
    }));
    all
}

/// The tapes of several stores over one account.
pub fn shelves() -> Vec<Recorded> {
    let shelves = (0..SHELVES).map(|number| {
        let tape = generator::shelf_tape(SEED, number);
        let answers = shelf::answers(&tape);
        Recorded { name: format!("shelf-{:02}", number + 1), tape, answers }
    });
    shelves.collect()
}

fn of_tape(name: String, tape: Vec<u8>) -> Recorded {
    let answers = counter::answers(&tape);
    Recorded { name, tape, answers }
}
