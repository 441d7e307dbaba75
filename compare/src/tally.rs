//! Counts of what the crate answered, and the list of answers that a run has to reach.

use {
    crate::{
        answer::{Answer, Refusal},
        tape::{Outcome, Record, OUTCOMES},
    },
    std::{collections::BTreeMap, fmt},
};

/// How often each answer was given, by a buddy store and by a free list.
#[derive(Default)]
pub struct Tally {
    counts: BTreeMap<Label, [u64; 2]>,
}

/// A call and its answer, as far as runs tell them apart.
type Label = (&'static str, String);

/// What the last line of a tape's answers begins with.
const TAPE_ENDS: [&str; 3] = ["end", "stopped", "setup refused 1"];

impl Tally {
    /// Counts one answer.
    pub fn note(&mut self, free_list: bool, record: &Record, answer: &Answer) {
        let counts = self.counts.entry(label(record, answer)).or_default();
        counts[usize::from(free_list)] += 1;
    }

    /// Counts how a tape's answers ended.
    pub fn note_end(&mut self, free_list: bool, answers: &str) {
        let last = answers.lines().last().unwrap_or_default();
        let end = TAPE_ENDS.into_iter().find(|end| last.starts_with(end));
        let end = end.unwrap_or_else(|| panic!("a tape ends in '{last}'"));
        let counts = self.counts.entry(("tape", end.into())).or_default();
        counts[usize::from(free_list)] += 1;
    }

    /// Adds the counts of another run.
    pub fn add(&mut self, other: Tally) {
        for (label, more) in other.counts {
            let counts = self.counts.entry(label).or_default();
            counts[0] += more[0];
            counts[1] += more[1];
        }
    }

    /// What an engine can answer on a tape and didn't.
    pub fn missing(&self) -> Vec<String> {
        let engines = [(false, "buddy"), (true, "free list")];
        let missing = engines.into_iter().flat_map(|(free_list, engine)| {
            let wanted = reachable(free_list).into_iter();
            let unmet = wanted.filter(move |label| self.count(label, free_list) == 0);
            unmet.map(move |(call, answer)| format!("{engine}, {call}: {answer}"))
        });
        missing.collect()
    }

    fn count(&self, label: &Label, free_list: bool) -> u64 {
        let counts = self.counts.get(label);
        counts.map_or(0, |counts| counts[usize::from(free_list)])
    }
}

impl fmt::Display for Tally {
    fn fmt(&self, out: &mut fmt::Formatter<'_>) -> fmt::Result {
        writeln!(out, "{:<60}{:>12}{:>12}", "answer", "buddy", "free list")?;
        for ((call, answer), [buddy, free_list]) in &self.counts {
            let row = format!("{call}: {answer}");
            writeln!(out, "{row:<60}{buddy:>12}{free_list:>12}")?;
        }
        Ok(())
    }
}

fn label(record: &Record, answer: &Answer) -> Label {
    let answered = match answer {
        Answer::Block(_) => "block".into(),
        Answer::Order(_) => "order".into(),
        Answer::Released(memories) => format!("released {}", memories.len()),
        Answer::Refused(refusal) => refused(*refusal),
        Answer::RefusedFree(refusal, _) => format!("{} free", refused(*refusal)),
    };
    match record {
        Record::Ask { .. } => ("ask", answered),
        Record::Deliver { outcome, .. } => ("deliver", format!("{outcome}: {answered}")),
        Record::Return(_) => ("return", answered),
        Record::CleanUp => ("clean-up", answered),
    }
}

fn refused(refusal: Refusal) -> String {
    format!("refused {}, {refusal:?}", refusal.number())
}

/// Every answer that some tape draws from an engine. A free list's count is spent only after
/// 2^22 failed maps, so `missing` finds it in runs that hold such a tape.
fn reachable(free_list: bool) -> Vec<Label> {
    let refusals = |list: &[Refusal]| list.iter().map(|&refusal| refused(refusal)).collect();
    let mut asks: Vec<String> = refusals(&[
        Refusal::OrderOpen,
        Refusal::Mask,
        Refusal::Size,
        Refusal::LoansFull,
        Refusal::ChunksFull,
        Refusal::Count,
        Refusal::Objects,
    ]);
    asks.extend(["block".into(), "order".into()]);
    let mut returns: Vec<String> = refusals(&[Refusal::OrderOpen, Refusal::Stale]);
    returns.extend(["released 0".into(), "released 1".into()]);
    let mut clean_ups = Vec::new();
    if free_list {
        returns.push("released 2".into());
        clean_ups.extend(["released 0".into(), "released 1".into()]);
        clean_ups.push(refused(Refusal::OrderOpen));
    } else {
        asks.push(refused(Refusal::PairsFull));
    }
    let deliveries = OUTCOMES.into_iter().flat_map(|outcome| {
        let ends = delivery_ends(outcome, free_list).into_iter();
        ends.map(move |end| format!("{outcome}: {end}"))
    });
    let calls = [
        ("ask", asks),
        ("deliver", deliveries.collect()),
        ("return", returns),
        ("clean-up", clean_ups),
        ("tape", TAPE_ENDS.map(String::from).into()),
    ];
    let labels = calls
        .into_iter()
        .flat_map(|(call, answers)| answers.into_iter().map(move |answer| (call, answer)));
    labels.collect()
}

/// The answers that a delivery of an outcome can meet.
fn delivery_ends(outcome: Outcome, free_list: bool) -> Vec<String> {
    let host = refused(Refusal::Host);
    let device = refused(Refusal::Device);
    let end = match outcome {
        Outcome::Mapped | Outcome::NotWanted => "block".into(),
        Outcome::MapFailed if free_list => format!("{host} free"),
        Outcome::MapFailed | Outcome::MapOutOfHostMemory | Outcome::HostRefusal => host,
        Outcome::MapOutOfDeviceMemory | Outcome::DeviceRefusal => device,
    };
    let mut ends = vec![end, refused(Refusal::NoOrder)];
    if !outcome.is_refusal() {
        ends.push(refused(Refusal::MemoryHeld));
        ends.push(refused(Refusal::OutcomeUnsuited));
    }
    ends
}
