//! A second implementation of both memory engines in plain Rust, written from
//! the prose of document 01 alone and held against the crate.
//!
//! It aims at being read beside 01, so it keeps the plainest data that gives
//! the same answers: a buddy level is a queue of ready pairs and a list of
//! exhausted ones, a free list is a sorted vector of regions. Words such as
//! ask, order, deliver, return, loan and refusal are 01's.

mod account;
mod answer;
mod buddy;
mod freelist;
mod store;
mod tape;

use store::Store;
use tape::{Record, Settings};

/// A deliberate deviation from 01, to show that recorded tapes would notice it.
#[derive(Clone, Copy, PartialEq, Eq, Debug)]
pub enum Fault {
    /// 01 as it stands.
    None,
    /// In a buddy ring the head moves on only when the removed pair was the head.
    HeadOnlyWhenRemoved,
    /// A free list's releases are listed in rising chunk number.
    ReleasesByNumber,
    /// Refusal 9 does not grow a buddy store's levels.
    NineKeepsLevels,
    /// Refusal 9 is tested before refusal 8.
    NineBeforeEight,
    /// A return is matched by chunk, offset and size, whatever its serial.
    StaleByPlace,
    /// A delivery refused with 11 or 12 spends a serial.
    FailedSpendsSerial,
    /// After 11 or 12 chunk size and levels are again as before the order.
    ChunkSizeNotKept,
    /// A full chunk table is noticed only at the delivery.
    FullAfterOrder,
}

/// Each fault, in words.
pub const FAULTS: [(Fault, &str); 8] = [
    (Fault::HeadOnlyWhenRemoved, "head moved only when the head was removed"),
    (Fault::ReleasesByNumber, "releases listed by chunk number"),
    (Fault::NineKeepsLevels, "refusal 9 not growing the levels"),
    (Fault::NineBeforeEight, "9 tested before 8"),
    (Fault::StaleByPlace, "a stale slip taken after its room was lent again"),
    (Fault::FailedSpendsSerial, "a failed delivery spending a serial"),
    (Fault::ChunkSizeNotKept, "chunk size not kept after 11 or 12"),
    (Fault::FullAfterOrder, "FULL tested after the order"),
];

/// The answers to a tape: a line for each record, then the totals and the end.
pub fn answers(tape: &[u8], fault: Fault) -> String {
    let Some((settings, records)) = Settings::read(tape) else {
        return "setup refused 1\n".to_string();
    };
    let mut store = Store::set_up(&settings, fault);
    let mut text = String::new();
    let (mut position, mut count) = (0, 0);
    let last_line = loop {
        if position == records.len() {
            break format!("end {count}");
        }
        let Some((record, length)) = Record::read(&records[position..], settings.engine) else {
            break format!("stopped {position}");
        };
        let answer = store.call(record);
        text += &format!("{answer} ; {}\n", store.account.counts());
        position += length;
        count += 1;
    };
    text + &format!("{}\n{last_line}\n", store.account.totals())
}
