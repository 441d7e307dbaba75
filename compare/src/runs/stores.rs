//! Several stores over one account. The interleaved answers are for the library to be held
//! against; here each store's part of them is held against the plain implementation alone.

use crate::{
    difference::Difference,
    generator,
    parallel::share,
    plain,
    runs::{verdict, Verdict},
    shelf::{self, read_headers},
    tape::{write_header, write_record, Reader},
};

#[derive(Default)]
struct Found {
    calls: usize,
    /// Stores held against the plain implementation, and stores that the others left short of
    /// objects, which a store alone wouldn't be.
    alone: u64,
    short: u64,
    differences: Vec<Difference>,
}

pub fn run(seed: u64, count: u64) -> Verdict {
    let found = share(count, |found: &mut Found, number| {
        let tape = generator::shelf_tape(seed, number);
        let answers = shelf::answers(&tape);
        found.calls += answers.lines().count() - 2;
        for (place, part) in parts(&tape, &answers).into_iter().enumerate() {
            if part.answers.contains("refused 9\n") {
                found.short += 1;
            } else {
                found.alone += 1;
                let name = format!("stores-{seed}-{number}-{place}");
                found.differences.extend(part.against_plain(&name));
            }
        }
    });
    let sum = |of: fn(&Found) -> u64| found.iter().map(of).sum::<u64>();
    println!(
        "{count} shelves of two to four stores, {} calls; {} stores agree with the plain \
         implementation alone, {} ran short of shared objects and were left out",
        sum(|found| found.calls as u64),
        sum(|found| found.alone - found.differences.len() as u64),
        sum(|found| found.short),
    );
    let differences: Vec<_> = found.into_iter().flat_map(|found| found.differences).collect();
    verdict(&differences)
}

/// The part of one store: its calls that no other store's order disturbed, as a tape of its own,
/// and what they were answered, less the counts of the shared account.
struct Part {
    tape: Vec<u8>,
    answers: String,
}

impl Part {
    fn against_plain(self, name: &str) -> Option<Difference> {
        let alone = plain::answers(&self.tape, plain::Fault::None);
        let calls = self.answers.lines().count();
        let found = alone.lines().take(calls).map(|line| without_counts(line) + "\n").collect();
        Difference::between(name, &self.tape, self.answers, found)
    }
}

fn parts(tape: &[u8], answers: &str) -> Vec<Part> {
    let mut reader = Reader::new(tape);
    let headers = read_headers(&mut reader).expect("a shelf's tape begins with headers");
    let empty = headers.iter().map(|header| {
        let mut tape = Vec::new();
        write_header(&mut tape, header);
        Part { tape, answers: String::new() }
    });
    let mut parts: Vec<Part> = empty.collect();
    let mut lines = answers.lines();
    while let Some(Ok((place, record))) = reader.tagged_record() {
        let line = lines.next().expect("every record has an answer");
        let (_, answer) = line.split_once(' ').expect("a line begins with its store");
        let answer = without_counts(answer);
        if answer != "refused 2" {
            write_record(&mut parts[place].tape, &record);
            parts[place].answers += &(answer + "\n");
        }
    }
    parts
}

fn without_counts(line: &str) -> String {
    line.split(" ;").next().unwrap_or_default().into()
}
