//! All short call sequences of some tiny stores: the plain implementation against the crate.

use crate::{
    answer::{Answer, Refusal},
    counter::Counter,
    difference::Difference,
    ledger::Ledger,
    parallel::share,
    runs::{
        against_plain,
        tiny::{tiny_stores, Tiny},
        verdict, Verdict,
    },
    tape::{write_header, write_record, Record},
};

/// Calls of a sequence that may be refused without a trace; the next one ends it.
const IDLE_LIMIT: usize = 1;
/// Calls of the beginnings that are shared out among the cores.
const SHARED: usize = 3;

#[derive(Default)]
struct Found {
    sequences: u64,
    differences: Vec<Difference>,
}

pub fn run() -> Verdict {
    tiny_stores().iter().try_for_each(|tiny| {
        let filled = tiny.filled();
        let mut beginnings = Vec::new();
        let shared = filled.len() + SHARED;
        tiny.walk(shared, &mut filled.clone(), &mut |calls| beginnings.push(calls.to_vec()));
        let found = share(beginnings.len() as u64, |found: &mut Found, number| {
            let mut calls = beginnings[number as usize].clone();
            let length = filled.len() + tiny.calls;
            tiny.walk(length, &mut calls, &mut |calls| found.hold(tiny, calls));
        });
        let sequences: u64 = found.iter().map(|found| found.sequences).sum();
        println!("{}: {sequences} sequences of up to {} calls", tiny.name, tiny.calls);
        let differences = found.into_iter().flat_map(|found| found.differences).zip(1..);
        let named = differences.map(|(difference, number)| {
            let name = format!("short-{}-{number}", tiny.name.replace(' ', "-"));
            Difference { name, ..difference }
        });
        verdict(&named.collect::<Vec<_>>())
    })
}

impl Found {
    fn hold(&mut self, tiny: &Tiny, calls: &[Record]) {
        let mut tape = Vec::new();
        write_header(&mut tape, &tiny.settings.header());
        calls.iter().for_each(|call| write_record(&mut tape, call));
        self.sequences += 1;
        self.differences.extend(against_plain(tiny.name, &tape));
    }
}

impl Tiny {
    /// The calls after which the store has as many loans as its sequences begin with.
    fn filled(&self) -> Vec<Record> {
        let mut calls = Vec::new();
        loop {
            let (ledger, _) = self.replay(&calls);
            if ledger.loans.len() == self.loans_at_first {
                return calls;
            }
            calls.push(self.choices(&ledger, calls.len() as u64)[0]);
        }
    }

    /// Visits every sequence of `length` calls that begins with `calls`, and every shorter one
    /// that ends in an idle refusal too many.
    fn walk(&self, length: usize, calls: &mut Vec<Record>, visit: &mut dyn FnMut(&[Record])) {
        let (ledger, idle) = self.replay(calls);
        if calls.len() == length || idle > IDLE_LIMIT {
            return visit(calls);
        }
        for call in self.choices(&ledger, calls.len() as u64) {
            calls.push(call);
            self.walk(length, calls, visit);
            calls.pop();
        }
    }

    /// What the crate's answers tell after some calls, and how many of these left no trace.
    fn replay(&self, calls: &[Record]) -> (Ledger, usize) {
        let mut counter = Counter::open(self.settings);
        let mut ledger = Ledger::default();
        let mut idle = 0;
        for call in calls {
            let answer = counter.take(call);
            ledger.enter(call, &answer);
            idle += usize::from(is_idle(&answer));
        }
        counter.close(None);
        (ledger, idle)
    }

    /// The calls that may come next; the first is the one that leads to a loan.
    fn choices(&self, ledger: &Ledger, new_memory: u64) -> Vec<Record> {
        let mut choices = Vec::new();
        let ask = |&(size, mask): &(u64, u64)| Record::Ask { size, mask };
        if ledger.open.is_some() {
            choices.extend(self.outcomes.iter().map(|&outcome| {
                let memory = if outcome.is_refusal() { 0 } else { new_memory };
                Record::Deliver { outcome, memory }
            }));
            let outcome = self.outcomes[0];
            let held = ledger.held.first();
            choices.extend(held.map(|&memory| Record::Deliver { outcome, memory }));
            choices.extend(self.asks.first().map(ask));
        } else {
            choices.extend(self.asks.iter().map(ask));
        }
        choices.extend(ledger.loans.iter().map(|&block| Record::Return(block)));
        choices.extend(ledger.returned.last().map(|&block| Record::Return(block)));
        if self.settings.is_free_list() {
            choices.push(Record::CleanUp);
        }
        choices
    }
}

/// Whether a call left no trace.
fn is_idle(answer: &Answer) -> bool {
    let traces = [Refusal::Objects, Refusal::Device, Refusal::Host];
    matches!(answer, Answer::Refused(refusal) if !traces.contains(refusal))
}
