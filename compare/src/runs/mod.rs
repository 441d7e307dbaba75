//! The runs of the judge. Each prints what it counted and says what went wrong, if anything did.

pub mod random;
pub mod ranking;
pub mod recorded;
pub mod replay;
pub mod short;
pub mod stores;
mod tiny;

use {
    crate::{counter, difference::Difference, plain, smallest::smallest},
    std::path::Path,
};

/// How a run ended.
pub type Verdict = Result<(), String>;

/// Where tapes are kept on which something went wrong.
const DIFFERENCES: &str = "target/differences";
/// How many of them, at most.
const SAVED: usize = 20;

/// The difference between the crate and the plain implementation on a tape, if there is one.
fn against_plain(name: &str, tape: &[u8]) -> Option<Difference> {
    let expected = counter::answers(tape);
    let found = plain::answers(tape, plain::Fault::None);
    Difference::between(name, tape, expected, found)
}

/// Puts the smallest tape first that can be made of the shortest one, by what `hold` finds.
fn with_smallest(
    mut differences: Vec<Difference>,
    hold: impl Fn(&str, &[u8]) -> Option<Difference>,
) -> Vec<Difference> {
    if let Some(shortest) = differences.iter().min_by_key(|difference| difference.tape.len()) {
        let tape = smallest(&shortest.tape, |tape| hold("", tape).is_some());
        let small = hold(&format!("{}-smallest", shortest.name), &tape);
        differences.splice(0..0, small);
    }
    differences
}

/// Reports differences: the first of them are saved, and the first line of the first is told.
fn verdict(differences: &[Difference]) -> Verdict {
    let Some(first) = differences.first() else {
        return Ok(());
    };
    let folder = Path::new(DIFFERENCES);
    for difference in differences.iter().take(SAVED) {
        difference.save(folder).map_err(|error| error.to_string())?;
    }
    let count = differences.len();
    Err(format!("{count} differences; tape and both answers in compare/{DIFFERENCES}; {first}"))
}
