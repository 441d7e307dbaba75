//! The linked ranking, held against the crate's.

use {
    crate::ffi::{self, Answer},
    compare::runs::{
        ranking::{by_crate, type_list, Row, TYPES, USAGES},
        Verdict,
    },
};

/// A row's words: the type numbers, how many they are, and their mask.
const ROW: usize = TYPES + 2;
pub const ROWS: usize = ROW * USAGES as usize;
/// What the lent words hold before the call, and how many are lent past the rows.
const MARK: u64 = u64::MAX;
const PAST: usize = 3;
/// The answers that 64 rows were ranked, and that the words are refused as 1.
const RANKED: Answer = [5, 0, 0, 0, 0, 0];
const REFUSED: Answer = [4, 1, 0, 0, 0, 0];

/// Compares on `count` random type lists: every word of the rows, and the answer's.
pub fn run(seed: u64, count: u64) -> Verdict {
    (0..count).try_for_each(|number| check(&type_list(seed, number)))?;
    println!("{count} type lists: the linked ranking is the crate's");
    Ok(())
}

fn check(words: &[u8]) -> Verdict {
    let types: Vec<u32> = words.iter().map(|&word| word.into()).collect();
    let (mut rows, mut answer) = (vec![MARK; ROWS + PAST], [MARK; 6]);
    ffi::rank(&types, &mut rows, &mut answer);
    let expected = by_crate(words);
    let said = if expected.is_some() { RANKED } else { REFUSED };
    if answer != said {
        return Err(format!("types {words:?} are answered {answer:?} and not {said:?}"));
    }
    let wanted = row_words(expected);
    match (0..rows.len()).find(|&at| rows[at] != wanted[at]) {
        Some(at) => {
            let (found, wanted) = (rows[at], wanted[at]);
            let (usage, at) = (at / ROW, at % ROW);
            Err(format!("types {words:?}: usage {usage}, word {at} is {found} and not {wanted}"))
        }
        None => Ok(()),
    }
}

/// The words that a call has to leave: empty rows where it refuses, and past them what was there.
fn row_words(rows: Option<Vec<Row>>) -> Vec<u64> {
    let mut words = vec![0; ROWS];
    for (row, (mask, types)) in words.chunks_mut(ROW).zip(rows.into_iter().flatten()) {
        row.iter_mut().zip(&types).for_each(|(word, &number)| *word = number.into());
        row[TYPES] = types.len() as u64;
        row[TYPES + 1] = mask.into();
    }
    words.extend([MARK; PAST]);
    words
}
