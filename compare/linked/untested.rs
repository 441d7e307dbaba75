//! Copies of the archives, for timing only: in a copy some functions, tests, say at once that all is
//! well, and the exported names begin with another word, so that a program links both. All functions
//! begin with a cache line there, so that copies differ in nothing else. A copy lies in the folder of
//! cargo's build and is never shipped: it takes a torn store for a sound one.

const ARCHIVE: &[u8] = b"!<arch>\n";
const MEMBER_HEADER: usize = 60;
const MEMBER_SIZE: std::ops::Range<usize> = 48..58;
const MEMBER_END: &[u8] = b"`\n";

/// ELF, of 64 bits, its low bytes first, of version 1.
const OBJECT: &[u8] = b"\x7fELF\x02\x01\x01";
/// Places in its header: the processor; where its sections' entries begin, the bytes of one and how
/// many there are; the section that has their names.
const PROCESSOR: usize = 18;
const ENTRIES: usize = 40;
const ENTRY_SIZE: usize = 58;
const ENTRY_COUNT: usize = 60;
const NAMES: usize = 62;
const X86_64: u64 = 62;
const AARCH64: u64 = 183;
const PROGRAM_BITS: u64 = 1;
const RELOCATIONS: u64 = 4;
/// In a section's entry: the flag of code, and the place that says of what its address is a multiple.
const IS_CODE: u64 = 4;
const MULTIPLE_OF: usize = 48;
const RELOCATION: usize = 24;

/// Functions of a copy begin with a line of the processor's cache. Where the linker puts them at any
/// multiple of 16, the same loop takes a fifth longer in one copy than in another.
const CACHE_LINE: u64 = 64;

/// The word that exported names begin with.
const SHIPPED: &str = "tibrezkam";

/// The section of a function that is a test, and what it says at once in a copy.
pub type Test = (&'static str, Says);

/// What a test says at once.
#[derive(Clone, Copy)]
pub enum Says {
    /// A test: yes.
    Yes,
    /// A gate, whose answer begins with whether it refuses: go.
    Go,
}

impl Says {
    /// The instructions, for a processor.
    fn code(self, processor: u64) -> Result<&'static [u8], String> {
        match (self, processor) {
            // mov al, 1; ret
            (Says::Yes, X86_64) => Ok(&[0xb0, 0x01, 0xc3]),
            // xor eax, eax; ret
            (Says::Go, X86_64) => Ok(&[0x31, 0xc0, 0xc3]),
            // mov w0, #1; ret
            (Says::Yes, AARCH64) => Ok(&[0x20, 0x00, 0x80, 0x52, 0xc0, 0x03, 0x5f, 0xd6]),
            // mov w0, #0; ret
            (Says::Go, AARCH64) => Ok(&[0x00, 0x00, 0x80, 0x52, 0xc0, 0x03, 0x5f, 0xd6]),
            _ => Err(format!("an object is for processor {processor}")),
        }
    }
}

/// A section's entry, kind, flags and name, where it lies in its object, and the section that it is
/// about.
struct Section {
    entry: usize,
    name: usize,
    kind: u64,
    flags: u64,
    at: usize,
    size: usize,
    about: usize,
}

/// The archive with names that begin with another word, and with these tests saying at once what
/// they are to say.
pub fn copy(archive: &[u8], word: &str, tests: &[Test]) -> Result<Vec<u8>, String> {
    let mut copy = archive.to_vec();
    for &(section, says) in tests {
        let (place, code) = place(archive, section, says)?;
        copy[place..place + code.len()].copy_from_slice(code);
    }
    align(&mut copy)?;
    rename(&mut copy, word)?;
    Ok(copy)
}

/// Has every section of code, which is a function, begin with a cache line.
fn align(archive: &mut [u8]) -> Result<(), String> {
    let mut places = Vec::new();
    for (at, object) in objects(archive)? {
        let code = sections(object)?.into_iter().filter(|section| section.flags & IS_CODE != 0);
        places.extend(code.map(|section| at + section.entry + MULTIPLE_OF));
    }
    for place in places {
        archive[place..place + 8].copy_from_slice(&CACHE_LINE.to_le_bytes());
    }
    Ok(())
}

/// Where the function of a section begins, and what is to be written there.
fn place(archive: &[u8], section: &str, says: Says) -> Result<(usize, &'static [u8]), String> {
    let mut places = Vec::new();
    for (at, object) in objects(archive)? {
        let code = says.code(number(object, PROCESSOR, 2)?)?;
        places.extend(function(object, section, code.len())?.map(|place| (at + place, code)));
    }
    match places[..] {
        [place] => Ok(place),
        _ => Err(format!("{} sections are named {section}", places.len())),
    }
}

/// The archive's objects, each with its place. Other members are its index of names.
fn objects(archive: &[u8]) -> Result<Vec<(usize, &[u8])>, String> {
    let mut found = Vec::new();
    let mut at = ARCHIVE.len();
    if !archive.starts_with(ARCHIVE) {
        return Err("it is no archive".into());
    }
    while at < archive.len() {
        let header = part(archive, at, MEMBER_HEADER)?;
        if !header.ends_with(MEMBER_END) {
            return Err(format!("no member begins at byte {at}"));
        }
        let size = std::str::from_utf8(&header[MEMBER_SIZE]).map_err(|error| error.to_string())?;
        let size = size.trim().parse().map_err(|_| format!("no size: {size}"))?;
        at += MEMBER_HEADER;
        let member = part(archive, at, size)?;
        if member.starts_with(OBJECT) {
            found.push((at, member));
        }
        // Members begin at even places.
        at += size + size % 2;
    }
    Ok(found)
}

/// Where the function of a section begins, if the object has that section; so many bytes of it are
/// to be written.
fn function(object: &[u8], name: &str, written: usize) -> Result<Option<usize>, String> {
    let sections = sections(object)?;
    let names =
        sections.get(number(object, NAMES, 2)? as usize).ok_or("its sections have no names")?;
    let names = part(object, names.at, names.size)?;
    let is_named = |section: &Section| {
        let rest = names.get(section.name..).and_then(|rest| rest.strip_prefix(name.as_bytes()));
        section.kind == PROGRAM_BITS && rest.is_some_and(|rest| rest.first() == Some(&0))
    };
    let Some(place) = sections.iter().position(is_named) else {
        return Ok(None);
    };
    let Section { at, size, .. } = sections[place];
    if size < written {
        return Err(format!("{name} has {size} bytes only"));
    }
    part(object, at, size)?;
    let tables = sections.iter().filter(|table| table.kind == RELOCATIONS && table.about == place);
    for first in tables.flat_map(|table| (table.at..table.at + table.size).step_by(RELOCATION)) {
        if number(object, first, 8)? < written as u64 {
            return Err(format!("the linker writes into the first bytes of {name}"));
        }
    }
    Ok(Some(at))
}

fn sections(object: &[u8]) -> Result<Vec<Section>, String> {
    let first = number(object, ENTRIES, 8)? as usize;
    let size = number(object, ENTRY_SIZE, 2)? as usize;
    let section = |place: usize| {
        let at = first + place * size;
        Ok(Section {
            entry: at,
            name: number(object, at, 4)? as usize,
            kind: number(object, at + 4, 4)?,
            flags: number(object, at + 8, 8)?,
            at: number(object, at + 24, 8)? as usize,
            size: number(object, at + 32, 8)? as usize,
            about: number(object, at + 44, 4)? as usize,
        })
    };
    (0..number(object, ENTRY_COUNT, 2)? as usize).map(section).collect()
}

/// Gives every exported name its other beginning, in the objects and in the archive's index.
fn rename(archive: &mut [u8], word: &str) -> Result<(), String> {
    if word.len() != SHIPPED.len() {
        return Err(format!("{word} is not as long as {SHIPPED}: places in the file would move"));
    }
    let mut count = 0;
    for at in 0..archive.len() {
        if archive[at..].starts_with(SHIPPED.as_bytes()) {
            archive[at..at + word.len()].copy_from_slice(word.as_bytes());
            count += 1;
        }
    }
    if count == 0 {
        return Err("it exports nothing that can be renamed".into());
    }
    Ok(())
}

/// The number in so many bytes.
fn number(bytes: &[u8], at: usize, size: usize) -> Result<u64, String> {
    let bytes = part(bytes, at, size)?;
    Ok(bytes.iter().rev().fold(0, |number, &byte| number << 8 | u64::from(byte)))
}

fn part(bytes: &[u8], at: usize, size: usize) -> Result<&[u8], String> {
    let end = at.checked_add(size);
    let part = end.and_then(|end| bytes.get(at..end));
    part.ok_or_else(|| format!("{size} bytes at {at} are more than there are"))
}
