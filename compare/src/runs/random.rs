//! Random tapes: the plain implementation against the crate.

use crate::{
    counter,
    difference::Difference,
    generator,
    parallel::share,
    plain::{self, Fault},
    runs::{against_plain, verdict, with_smallest, Verdict},
    tally::Tally,
};

#[derive(Default)]
struct Found {
    tally: Tally,
    calls: u64,
    differences: Vec<(u64, Difference)>,
}

/// Runs `count` random tapes of a seed and the two tapes that spend the heap's count.
pub fn run(seed: u64, count: u64) -> Verdict {
    let parts = share(count + 2, |found: &mut Found, number| {
        let free_list = number % 2 == 1;
        let (name, tape) = match number.checked_sub(2) {
            None => (format!("spent-heap-{number}"), generator::spent_heap(free_list)),
            Some(number) => (format!("random-{seed}-{number}"), generator::tape(seed, number)),
        };
        let expected = counter::replay(&tape, |record, answer| {
            found.tally.note(free_list, record, answer);
            found.calls += 1;
        });
        found.tally.note_end(free_list, &expected);
        let answers = plain::answers(&tape, Fault::None);
        let difference = Difference::between(&name, &tape, expected, answers);
        found.differences.extend(difference.map(|difference| (number, difference)));
    });

    let mut found = Found::default();
    for part in parts {
        found.tally.add(part.tally);
        found.calls += part.calls;
        found.differences.extend(part.differences);
    }
    found.differences.sort_by_key(|(number, _)| *number);
    let differences: Vec<_> = found.differences.into_iter().map(|(_, found)| found).collect();

    println!("{count} tapes and 2 that spend the heap's count, {} calls", found.calls);
    println!("{} differences", differences.len());
    print!("{}", found.tally);
    verdict(&with_smallest(differences, against_plain))?;
    match found.tally.missing() {
        missing if missing.is_empty() => Ok(()),
        missing => Err(format!("never reached: {}", missing.join("; "))),
    }
}
