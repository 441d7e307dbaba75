//! Ranking: the crate's `MemoryForUsage` against document 01's rule and the `rank` program.

use {
    crate::{
        random::Random,
        runs::Verdict,
        usage::{probe, MemoryForUsage, UsageFlags},
        MemoryPropertyFlags, MemoryType,
    },
    std::{
        fmt::Write as _,
        io::{self, Write as _},
        path::Path,
        process::{Command, Stdio},
    },
};

pub const USAGES: u8 = 64;
pub const TYPES: usize = 32;
const PROPERTY_WORDS: u64 = 64;

/// One usage's row: the mask, and the types in their order.
pub type Row = (u32, Vec<u32>);

/// Document 01's worked types, and for some usages the mask and the order of the types.
const WORKED_TYPES: [u8; 5] = [1, 6, 14, 7, 17];
const WORKED_ROWS: [(usize, u32, &[u32]); 4] =
    [(0, 15, &[0, 3, 1, 2]), (4, 14, &[2, 1, 3]), (8, 14, &[1, 2, 3]), (16, 15, &[1, 2, 0, 3])];

/// Compares on `count` random type lists: the rule always, the program if it is there and on so
/// many of them.
pub fn run(program: &Path, seed: u64, count: u64, program_count: u64) -> Verdict {
    check_worked_types()?;
    let lists: Vec<Vec<u8>> = (0..count).map(|number| type_list(seed, number)).collect();
    if let Some(words) = lists.iter().find(|words| by_crate(words) != by_rule(words)) {
        return Err(format!("01's rule and the crate rank {words:?} differently"));
    }
    println!("{count} type lists: 01's rule ranks as the crate does");

    if !program.exists() {
        println!("skipped: there is no {}", program.display());
        return Ok(());
    }
    let lists: Vec<Vec<u8>> = lists.into_iter().take(program_count as usize).collect();
    lists.iter().try_for_each(|words| check_program(program, words))?;
    println!("{} type lists: the program ranks as the crate does", lists.len());
    Ok(())
}

fn check_worked_types() -> Verdict {
    let rows = by_crate(&WORKED_TYPES).ok_or("the worked types are within the table")?;
    let agrees = |(usage, mask, row): &(usize, u32, &[u32])| rows[*usage] == (*mask, row.to_vec());
    match WORKED_ROWS.iter().find(|worked| !agrees(worked)) {
        Some((usage, ..)) => Err(format!("usage {usage} isn't ranked as on the worked day")),
        None => Ok(()),
    }
}

fn check_program(program: &Path, words: &[u8]) -> Verdict {
    let found = rank(program, words).map_err(|error| error.to_string())?;
    let expected = text(by_crate(words));
    let mut lines = expected.lines().zip(found.lines());
    if expected == found {
        return Ok(());
    }
    Err(match lines.find(|(expected, found)| expected != found) {
        Some((expected, found)) => {
            format!("types {words:?} give '{found}' and should give '{expected}'")
        }
        None => format!("types {words:?} give a wrong number of lines"),
    })
}

/// A list of property words: any length, half of them with many ties, some outside the table.
pub fn type_list(seed: u64, number: u64) -> Vec<u8> {
    let mut random = Random::new(seed, number);
    let most = TYPES as u64;
    let length = if random.percent(2) { most + 1 } else { random.within(0..=most) };
    let few: Vec<u64> = (0..3).map(|_| random.below(16)).collect();
    let ties = random.percent(50);
    let mut words: Vec<u8> = (0..length)
        .map(|_| if ties { random.pick(&few) } else { random.below(PROPERTY_WORDS) } as u8)
        .collect();
    if length > 0 && random.percent(3) {
        words[random.below(length) as usize] = random.within(PROPERTY_WORDS..=255) as u8;
    }
    words
}

fn is_allowed(words: &[u8]) -> bool {
    words.len() <= TYPES && words.iter().all(|&word| u64::from(word) < PROPERTY_WORDS)
}

/// The crate's rows, where 01's table allows the words. Its sort leaves the order of equal keys open, so they are put in order of
/// number here; that its keys rise is not repaired but tested.
pub fn by_crate(words: &[u8]) -> Option<Vec<Row>> {
    if !is_allowed(words) {
        return None;
    }
    let properties: Vec<_> =
        words.iter().map(|&word| MemoryPropertyFlags::from_bits_truncate(word)).collect();
    let types: Vec<MemoryType> =
        properties.iter().map(|&props| MemoryType { heap: 0, props }).collect();
    let ranking = MemoryForUsage::new(&types);
    let rows = (0..USAGES).map(|usage| {
        let usage = UsageFlags::from_bits_truncate(usage);
        let key = |number: &u32| probe::key(usage, properties[*number as usize]);
        let mut row = ranking.types(usage).to_vec();
        assert!(row.is_sorted_by_key(key), "the crate's keys rise");
        row.sort_by_key(|number| (key(number), *number));
        (ranking.mask(usage), row)
    });
    Some(rows.collect())
}

/// The rows by the prose of document 01.
fn by_rule(words: &[u8]) -> Option<Vec<Row>> {
    is_allowed(words).then(|| (0..USAGES).map(|usage| row_by_rule(usage, words)).collect())
}

fn row_by_rule(usage: u8, words: &[u8]) -> Row {
    let has = |word: u8, bits: u8| word & bits != 0;
    let (fast, download, upload, host_sided) = (1, 4, 8, 2 | 4 | 8);
    let wanted = 8 * u8::from(usage == 0 || has(usage, fast))
        + 4 * u8::from(has(usage, host_sided))
        + 2 * u8::from(has(usage, download))
        + u8::from(has(usage, upload | download));
    let (local, visible, coherent, cached, never) = (1, 2, 4, 8, 16 | 32);
    let serves = |word: u8| !has(word, never) && (has(word, visible) || !has(usage, host_sided));
    let key = |word: u8| {
        let pattern = 8 * u8::from(has(word, local))
            + 4 * u8::from(has(word, visible))
            + 2 * u8::from(has(word, cached))
            + u8::from(has(word, coherent));
        pattern ^ wanted
    };
    let mut row: Vec<u32> =
        (0..).zip(words).filter(|(_, &word)| serves(word)).map(|(number, _)| number).collect();
    row.sort_by_key(|&number| (key(words[number as usize]), number));
    (row.iter().fold(0, |mask, number| mask | 1 << number), row)
}

/// What the program is to print.
fn text(rows: Option<Vec<Row>>) -> String {
    let Some(rows) = rows else {
        return "refused 1\n".into();
    };
    let mut text = String::new();
    for (usage, (mask, row)) in rows.iter().enumerate() {
        write!(text, "{usage} {} {mask}", row.len()).expect("a string takes all");
        row.iter().for_each(|number| write!(text, " {number}").expect("a string takes all"));
        text.push('\n');
    }
    text
}

/// What the program prints for the words on its standard input.
fn rank(program: &Path, words: &[u8]) -> io::Result<String> {
    let mut child = Command::new(program).stdin(Stdio::piped()).stdout(Stdio::piped()).spawn()?;
    // A few bytes always fit into the pipe, so nothing waits on anything.
    child.stdin.take().expect("standard input is a pipe").write_all(words)?;
    let output = child.wait_with_output()?;
    Ok(String::from_utf8_lossy(&output.stdout).into())
}
