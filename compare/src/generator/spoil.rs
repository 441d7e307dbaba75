//! Tapes that end early: a header outside the table, or a record that can't be read.

use crate::{
    random::Random,
    settings::Settings,
    tape::{word, HEADER_BYTES},
};

/// Spoils one tape in twenty.
pub fn spoil(random: &mut Random, settings: &Settings, tape: &mut Vec<u8>) {
    match random.below(60) {
        0 => spoil_header(random, tape),
        1 | 2 => bad_record(random, settings, tape),
        _ => {}
    }
}

/// Puts a value outside the table into one word of the header, or cuts the header short.
fn spoil_header(random: &mut Random, tape: &mut Vec<u8>) {
    let beyond_u32 = 1 << 32;
    let (at, value) = random.pick(&[
        (word::ENGINE, 0),
        (word::ENGINE, 3),
        (word::STORE, beyond_u32),
        (word::MEMORY_TYPE, 32),
        (word::PROPERTIES, 64),
        (word::HEAP, 16),
        (word::ATOM_MASK, 2),
        (word::ATOM_MASK, (1 << 17) - 1),
        (word::LEAST, 0),
        (word::GREATEST, 0),
        (word::GREATEST, u64::MAX),
        (word::LOANS, 0),
        (word::LOANS, 513),
        (word::CHUNKS, 0),
        (word::CHUNKS, 65),
        (word::PAIRS, 257),
        (word::HEAP_SIZE, (1 << 62) + 1),
        (word::OBJECTS, beyond_u32),
    ]);
    tape[at * 8..][..8].copy_from_slice(&u64::to_le_bytes(value));
    if random.percent(10) {
        tape.truncate(random.below(HEADER_BYTES as u64) as usize);
    }
}

/// Adds a record that stops the replay, and one more after it.
fn bad_record(random: &mut Random, settings: &Settings, tape: &mut Vec<u8>) {
    let mut refusal_with_memory = vec![2, random.pick(&[5, 6])];
    refusal_with_memory.extend(1_u64.to_le_bytes());
    let mut unknown_outcome = vec![2, random.pick(&[7, 255])];
    unknown_outcome.extend([0; 8]);
    let cut = random.below(32) as usize;
    match random.below(5) {
        0 => tape.push(random.pick(&[0, 5, 255])),
        1 => tape.extend(unknown_outcome),
        2 => tape.extend(refusal_with_memory),
        3 if !settings.is_free_list() => tape.push(4),
        _ => {
            let kind = random.pick(&[1_u8, 2, 3]);
            let body = match kind {
                1 => 16,
                2 => 9,
                _ => 32,
            };
            tape.push(kind);
            tape.extend(vec![0; cut.min(body - 1)]);
            return;
        }
    }
    tape.extend([1; 17]);
}
