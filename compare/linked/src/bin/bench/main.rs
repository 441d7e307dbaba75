//! Times the linked calls and the crate's on the same calls in one process: ours as shipped, ours
//! of the copies without the test of soundness (01's test 3) and without the whole gate (the tests 1
//! to 4), and the crate's.

mod clock;
mod side;
mod stores;

use {
    clock::{repeat, Clock},
    compare::{
        bare::{Bare, BareTypes},
        settings::Kind,
    },
    linked::{
        ffi::{self, SHIPPED},
        ranking::ROWS,
        store::Store,
    },
    side::{Churn, Lender, Ours, Side, CHURNS},
    std::hint::black_box,
    stores::{chunk_size, settings, ENGINES, LIVE, OURS},
};

/// Property words of memory types: eleven with many alike, and each of the 16 ranked ones twice.
const FEW_TYPES: [u8; 11] = [0, 0, 0, 0, 0, 0, 0, 1, 1, 6, 14];
const MANY_TYPES: [u8; 32] = [
    0, 7, 14, 5, 12, 3, 10, 1, 8, 15, 6, 13, 4, 11, 2, 9, //
    0, 7, 14, 5, 12, 3, 10, 1, 8, 15, 6, 13, 4, 11, 2, 9,
];

/// What a row is about: engine, call, churn, chunks held and blocks on loan.
type About<'a> = [&'a str; 5];

/// The least nanoseconds of a call: ours, ours without test 3, ours without the gate, and the crate's.
type Best = [f64; 4];

/// Asks and returns, and the number of chunks that are held all the while.
struct Calls {
    chunks: usize,
    ask: Best,
    take_back: Best,
}

fn main() {
    ENGINES.iter().flat_map(|(_, kinds)| kinds).for_each(|&kind| check_copies(kind));
    print_heading();
    for (engine, kinds) in ENGINES {
        print_row([engine, "set up", "", "", ""], time_set_up(kinds[0]));
        kinds.iter().for_each(|&kind| print_calls(engine, kind));
    }
    for words in [&FEW_TYPES[..], &MANY_TYPES] {
        let call = format!("{} types", words.len());
        print_row(["ranking", &call, "", "", ""], time_ranking(words));
    }
    print_slip_heading();
    for (engine, kinds) in ENGINES {
        kinds.iter().for_each(|&kind| print_slips(engine, kind));
    }
}

/// Test 3 of a store that nothing changes, for each block on loan too.
fn print_slips(engine: &str, kind: Kind) {
    for live in LIVE {
        let (chunks, [ours, untested]) = time_slips(kind, live);
        let (chunks, test) = (format!("{chunks} x {}K", chunk_size(kind) / 1_024), ours - untested);
        print_about([engine, "old slip", "", &chunks, &live.to_string()]);
        println!("{ours:>10.1}{untested:>9.1}{test:>10.1}{:>14.1}", test / live as f64);
    }
}

fn print_slip_heading() {
    println!();
    println!("an old slip returned again and again: test 3 of tables that no call changes");
    print_about(["engine", "call", "", "chunks", "live"]);
    println!("{:>10}{:>9}{:>10}{:>14}", "ours", "no 3", "test 3", "test 3/live");
}

fn print_calls(engine: &str, kind: Kind) {
    for (name, churn) in CHURNS {
        for live in LIVE {
            let Calls { chunks, ask, take_back } = time_calls(kind, live, churn);
            let chunks = format!("{chunks} x {}K", chunk_size(kind) / 1_024);
            let live = live.to_string();
            print_row([engine, "ask", name, &chunks, &live], ask);
            print_row([engine, "return", name, &chunks, &live], take_back);
        }
    }
}

fn print_heading() {
    println!("nanoseconds a call, the best of many batches");
    println!("'no 3': without test 3; 'no 1-4': without the gate, that is, between the tests");
    println!("'test 3': what it takes, in nanoseconds and in crate's calls");
    print_about(["engine", "call", "churn", "chunks", "live"]);
    print!("{:>10}{:>9}{:>9}{:>9}", "ours", "no 3", "no 1-4", "crate");
    println!("{:>12}{:>14}{:>10}{:>14}", "no 3/crate", "no 1-4/crate", "test 3", "test 3/crate");
}

fn print_row(about: About, [ours, untested, ungated, of_crate]: Best) {
    let [tested, between] = [untested, ungated].map(|time| time / of_crate);
    let test = ours - untested;
    print_about(about);
    print!("{ours:>10.1}{untested:>9.1}{ungated:>9.1}{of_crate:>9.1}");
    println!("{tested:>12.2}{between:>14.2}{test:>10.1}{:>14.1}", test / of_crate);
}

fn print_about([engine, call, churn, chunks, live]: About) {
    print!("{engine:<11}{call:<10}{churn:<8}{chunks:<11}{live:>4}");
}

/// Asks of a torn store, and while an order is open: ours refuse the one by test 3 and the other by
/// test 2, a copy without test 3 only the other, and a copy without the gate neither.
fn check_copies(kind: Kind) {
    let torn = OURS.map(|engines| {
        let mut ours = Ours::set_up(engines, &settings(kind));
        ours.fill(1);
        ours.ask_torn()
    });
    let refused = torn.map(|answer| answer == [4, 3, 0, 0, 0, 0]);
    assert_eq!(refused, [true, false, false], "a torn store: {torn:?}");
    let ordered = OURS.map(|engines| Ours::set_up(engines, &settings(kind)).ask_twice());
    let refused = ordered.map(|answer| answer == [4, 2, 0, 0, 0, 0]);
    assert_eq!(refused, [true, true, false], "an open order: {ordered:?}");
}

/// Set-ups; ours are over the same words again and again.
fn time_set_up(kind: Kind) -> Best {
    let settings = settings(kind);
    let mut store = Store::lent(&SHIPPED, &settings.header()).expect("settings of an engine");
    let ready = || assert_eq!(store.set_up()[0], 0, "a set-up is not refused");
    time_ungated(ready, || black_box(Bare::set_up(&settings)))
}

/// Rankings.
fn time_ranking(words: &[u8]) -> Best {
    let types: Vec<u32> = words.iter().map(|&word| word.into()).collect();
    let (mut rows, mut answer) = (vec![0; ROWS], [0; 6]);
    let bare = BareTypes::new(words);
    let ranked = || {
        ffi::rank(&types, &mut rows, &mut answer);
        assert_eq!(answer[0], 5, "types within the table");
    };
    time_ungated(ranked, || black_box(bare.rank()))
}

/// Calls that have no gate, and so no copies: ours stand in all three columns.
fn time_ungated<T>(mut call_ours: impl FnMut(), mut call_crate: impl FnMut() -> T) -> Best {
    let (mut clock, mut ours, mut of_crate) = (Clock::first(), f64::INFINITY, f64::INFINITY);
    repeat(|| {
        ours = ours.min(clock.time(&mut call_ours));
        of_crate = of_crate.min(clock.time(&mut call_crate));
    });
    [ours, ours, ours, of_crate]
}

/// Asks and returns with so many blocks on loan, which go back in an order.
fn time_calls(kind: Kind, live: usize, churn: Churn) -> Calls {
    let settings = settings(kind);
    let mut ours = OURS.map(|engines| Side::new(Ours::set_up(engines, &settings), live, churn));
    let mut of_crate = Side::new(Bare::set_up(&settings), live, churn);
    repeat(|| {
        of_crate.batch();
        for side in &mut ours {
            side.batch();
            assert!(side.places().eq(of_crate.places()), "the same places");
        }
    });
    let [tested, untested, ungated] = &ours;
    let ask = [tested.ask, untested.ask, ungated.ask, of_crate.ask];
    let take_back = [tested.take_back, untested.take_back, ungated.take_back, of_crate.take_back];
    let chunks = of_crate.chunks();
    of_crate.close();
    Calls { chunks, ask, take_back }
}

/// Returns of a slip that no block has, with and without test 3, and the number of chunks held.
fn time_slips(kind: Kind, live: usize) -> (usize, [f64; 2]) {
    let settings = settings(kind);
    let mut sides = [OURS[0], OURS[1]]
        .map(|engines| Side::new(Ours::set_up(engines, &settings), live, Churn::Random));
    let mut best = [f64::INFINITY; 2];
    repeat(|| {
        for (side, best) in sides.iter_mut().zip(&mut best) {
            *best = best.min(side.refuse_slips());
        }
    });
    (sides[0].chunks(), best)
}
