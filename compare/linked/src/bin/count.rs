//! The calls that `bench` times, made to be counted: those of one batch, of the store that the first
//! argument numbers, with one large chunk and as many blocks on loan as the second says, on the side
//! that the third numbers: ours in their three forms, then the crate's; they go back in random order.
//! What is counted lies in `counted_returns` and `counted_asks`. It prints how many of each there were.

// Shared with `bench`, which uses more of them.
#[allow(dead_code)]
#[path = "bench/side.rs"]
mod side;
#[allow(dead_code)]
#[path = "bench/stores.rs"]
mod stores;

/// In place of the clock: functions by whose names the counted work is found.
mod clock {
    use std::hint::black_box;

    /// Whether work is counted, and whether it is returns next: they and asks come in turn.
    pub struct Clock {
        counts: bool,
        are_returns: bool,
    }

    impl Clock {
        /// What comes before the batches is not counted.
        pub fn first() -> Clock {
            Clock { counts: false, are_returns: true }
        }

        pub fn suited_to(_: f64) -> Clock {
            Clock { counts: true, are_returns: true }
        }

        pub fn time<T>(&mut self, work: impl FnOnce() -> T) -> f64 {
            let (mut work, mut done) = (Some(work), None);
            let mut work = || done = work.take().map(|work| work());
            match (self.counts, self.are_returns) {
                (false, _) => work(),
                (true, true) => counted_returns(&mut work),
                (true, false) => counted_asks(&mut work),
            }
            self.are_returns = !self.are_returns;
            0.0
        }
    }

    #[no_mangle]
    #[inline(never)]
    fn counted_returns(work: &mut dyn FnMut()) {
        work();
        counted_to(0);
    }

    #[no_mangle]
    #[inline(never)]
    fn counted_asks(work: &mut dyn FnMut()) {
        work();
        counted_to(1);
    }

    /// Ends what is counted, for one who sees where a function begins but not where it ends. The two
    /// above tell it apart, or they would be made one.
    #[no_mangle]
    #[inline(never)]
    fn counted_to(kind: u8) {
        black_box(kind);
    }
}

use {
    compare::bare::Bare,
    side::{Churn, Ours, Side},
    std::env,
    stores::{settings, ENGINES, OURS},
};

fn main() {
    let numbers: Vec<usize> =
        env::args().skip(1).map(|word| word.parse().expect("a number")).collect();
    let &[store, live, side] = &numbers[..] else {
        panic!("store, blocks on loan and side are told by three numbers");
    };
    let (_, [one_chunk, _]) = ENGINES[store];
    let settings = settings(one_chunk);
    let calls = match OURS.get(side) {
        Some(engines) => Side::new(Ours::set_up(engines, &settings), live, Churn::Random).batch(),
        None => {
            let mut of_crate = Side::new(Bare::set_up(&settings), live, Churn::Random);
            let calls = of_crate.batch();
            of_crate.close();
            calls
        }
    };
    println!("calls {calls}");
}
