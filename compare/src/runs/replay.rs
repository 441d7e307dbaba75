//! The project's `replay` program against the crate, on recorded and on fresh random tapes.

use {
    crate::{
        counter,
        difference::Difference,
        generator,
        parallel::share,
        plain::{self, FAULTS},
        recorded,
        runs::{verdict, with_smallest, Verdict},
    },
    std::{
        fs::{self, File},
        io,
        path::Path,
        process::{self, Command},
        thread,
        time::{Duration, Instant},
    },
};

#[derive(Default)]
struct Found {
    /// Tapes replayed, of buddies and of free lists.
    tapes: [u64; 2],
    calls: u64,
    /// How many tapes would notice each fault, had the program it.
    noticed: [u64; FAULTS.len()],
    differences: Vec<(u64, Difference)>,
}

/// Replays the recorded tapes and up to `count` random ones for each engine, within about `limit`.
pub fn run(program: &Path, seed: u64, count: u64, limit: Duration) -> Verdict {
    if !program.exists() {
        println!("skipped: there is no {}", program.display());
        return Ok(());
    }
    let began = Instant::now();
    let hold = |name: &str, tape: &[u8]| {
        let found = replay(program, tape).unwrap_or_else(|error| error.to_string());
        Difference::between(name, tape, counter::answers(tape), found)
    };
    let mut differences = Vec::new();
    for one in recorded::all() {
        differences.extend(hold(&format!("replay-{}", one.name), &one.tape));
    }
    let parts = share(2 * count, |found: &mut Found, number| {
        if began.elapsed() >= limit {
            return;
        }
        let tape = generator::tape(seed, number);
        let difference = hold(&format!("replay-random-{seed}-{number}"), &tape);
        found.differences.extend(difference.map(|difference| (number, difference)));
        found.note(number, &tape);
    });
    let mut found = Found::sum(parts);
    found.differences.sort_by_key(|(number, _)| *number);
    differences.extend(found.differences.drain(..).map(|(_, difference)| difference));

    let (recorded, [buddies, lists]) = (recorded::all().len(), found.tapes);
    println!("{recorded} recorded and {} random tapes replayed", buddies + lists);
    println!(
        "of the random ones {buddies} of buddies, {lists} of free lists; {} calls",
        found.calls
    );
    println!("{} differences", differences.len());
    found.print_faults();
    verdict(&with_smallest(differences, hold))
}

/// What the program prints for a tape on its standard input.
fn replay(program: &Path, tape: &[u8]) -> io::Result<String> {
    // each thread of each run has a tape of its own
    let file = format!("target/replay-{}-{:?}.tape", process::id(), thread::current().id());
    fs::write(&file, tape)?;
    let output = Command::new(program).stdin(File::open(&file)?).output()?;
    fs::remove_file(&file)?;
    Ok(String::from_utf8_lossy(&output.stdout).into())
}

impl Found {
    fn note(&mut self, number: u64, tape: &[u8]) {
        self.tapes[(number % 2) as usize] += 1;
        let answers = counter::replay(tape, |_, _| self.calls += 1);
        for (noticed, (fault, _)) in self.noticed.iter_mut().zip(FAULTS) {
            *noticed += u64::from(answers != plain::answers(tape, fault));
        }
    }

    fn sum(parts: Vec<Found>) -> Found {
        let mut sum = Found::default();
        for part in parts {
            sum.tapes.iter_mut().zip(part.tapes).for_each(|(all, some)| *all += some);
            sum.noticed.iter_mut().zip(part.noticed).for_each(|(all, some)| *all += some);
            sum.calls += part.calls;
            sum.differences.extend(part.differences);
        }
        sum
    }

    fn print_faults(&self) {
        println!("{:<52}{:>8}", "fault that random tapes would notice", "tapes");
        for (noticed, (_, what)) in self.noticed.iter().zip(FAULTS) {
            println!("{what:<52}{noticed:>8}");
        }
    }
}
