//! The linked stores and ranking against the crate: on tapes of several stores, on recorded ones, and
//! on lists of memory types; and on tables that are mixed.

use {
    compare::{difference::Difference, generator, parallel::share, shelf},
    linked::{
        mixed, ranking,
        shelf::{answers_of_one, answers_of_several},
    },
    std::{env, fs, io, path::Path, process::ExitCode},
};

const USAGE: &str =
    "linked recorded | linked stores SEED COUNT | linked rank SEED COUNT | linked mixed SEED COUNT";
/// The recorded tapes of one store and of several, seen from this package.
const RECORDED: &str = "../recorded";
const RECORDED_STORES: &str = "../recorded/stores";
/// Where the first tape is kept on which something differs.
const DIFFERENCES: &str = "target/differences";

/// What was run, and the tapes that differ by number.
#[derive(Default)]
struct Found {
    tapes: u64,
    calls: u64,
    differences: Vec<(u64, Difference)>,
}

fn main() -> ExitCode {
    let arguments: Vec<String> = env::args().skip(1).collect();
    let arguments: Vec<&str> = arguments.iter().map(String::as_str).collect();
    match run(&arguments) {
        Ok(()) => ExitCode::SUCCESS,
        Err(message) => {
            println!("FAILED: {message}");
            ExitCode::FAILURE
        }
    }
}

fn run(arguments: &[&str]) -> Result<(), String> {
    let number = |text: &str| text.parse::<u64>().map_err(|_| format!("no number: {text}"));
    match *arguments {
        ["recorded"] => recorded().map_err(|error| error.to_string())?.verdict(),
        ["stores", seed, count] => stores(number(seed)?, number(count)?).verdict(),
        ["rank", seed, count] => ranking::run(number(seed)?, number(count)?),
        ["mixed", seed, count] => mixed::run(number(seed)?, number(count)?),
        _ => Err(USAGE.into()),
    }
}

fn stores(seed: u64, count: u64) -> Found {
    let parts = share(count, |found: &mut Found, number| {
        let tape = generator::shelf_tape(seed, number);
        let name = format!("linked-stores-{seed}-{number}");
        found.hold(number, &name, &tape, shelf::answers(&tape), answers_of_several(&tape));
    });
    parts.into_iter().fold(Found::default(), Found::with)
}

fn recorded() -> io::Result<Found> {
    let mut found = Found::default();
    found.hold_folder(RECORDED, answers_of_one)?;
    found.hold_folder(RECORDED_STORES, answers_of_several)?;
    Ok(found)
}

impl Found {
    /// Holds our answers to a tape against the crate's.
    fn hold(&mut self, number: u64, name: &str, tape: &[u8], expected: String, found: String) {
        self.tapes += 1;
        // The last two lines are the totals and the end.
        self.calls += (expected.lines().count() as u64).saturating_sub(2);
        let difference = Difference::between(name, tape, expected, found);
        self.differences.extend(difference.map(|difference| (number, difference)));
    }

    /// Holds our answers to each tape of a folder against those beside it.
    fn hold_folder(&mut self, folder: &str, answers: fn(&[u8]) -> String) -> io::Result<()> {
        let entries = fs::read_dir(folder)?.collect::<io::Result<Vec<_>>>()?;
        let mut paths: Vec<_> = entries.iter().map(|entry| entry.path()).collect();
        paths.retain(|path| path.extension().is_some_and(|end| end == "tape"));
        paths.sort();
        for path in paths {
            let tape = fs::read(&path)?;
            let expected = fs::read_to_string(path.with_extension("answers"))?;
            let stem = path.file_stem().expect("a tape has a name").to_string_lossy();
            self.hold(self.tapes, &format!("linked-{stem}"), &tape, expected, answers(&tape));
        }
        Ok(())
    }

    fn with(mut self, other: Found) -> Found {
        self.tapes += other.tapes;
        self.calls += other.calls;
        self.differences.extend(other.differences);
        self
    }

    /// Prints the counts; the first tape that differs is kept and its first difference told.
    fn verdict(mut self) -> Result<(), String> {
        let (tapes, calls, count) = (self.tapes, self.calls, self.differences.len());
        println!("{tapes} tapes, {calls} calls, {count} differences");
        self.differences.sort_by_key(|(number, _)| *number);
        match self.differences.first() {
            None if tapes == 0 => Err("there are no tapes".into()),
            None => Ok(()),
            Some((_, first)) => {
                first.save(Path::new(DIFFERENCES)).map_err(|error| error.to_string())?;
                Err(format!("tape and both answers in compare/linked/{DIFFERENCES}; {first}"))
            }
        }
    }
}
