//! A tape on which two implementations answer differently.

use std::{fmt, fs, io, path::Path};

/// A tape, and the two texts of answers.
pub struct Difference {
    pub name: String,
    pub tape: Vec<u8>,
    pub expected: String,
    pub found: String,
}

impl Difference {
    /// Compares two texts of answers to a tape.
    pub fn between(name: &str, tape: &[u8], expected: String, found: String) -> Option<Self> {
        if expected == found {
            return None;
        }
        Some(Difference { name: name.into(), tape: tape.into(), expected, found })
    }

    /// Writes the tape and both texts into a folder, under the difference's name.
    pub fn save(&self, folder: &Path) -> io::Result<()> {
        fs::create_dir_all(folder)?;
        let file = |ending| folder.join(format!("{}.{ending}", self.name));
        fs::write(file("tape"), &self.tape)?;
        fs::write(file("expected"), &self.expected)?;
        fs::write(file("found"), &self.found)
    }
}

impl fmt::Display for Difference {
    fn fmt(&self, out: &mut fmt::Formatter<'_>) -> fmt::Result {
        let mut pairs = self.expected.lines().zip(self.found.lines()).enumerate();
        write!(out, "{}: ", self.name)?;
        match pairs.find(|(_, (expected, found))| expected != found) {
            Some((line, (expected, found))) => {
                let line = line + 1;
                write!(out, "line {line} should be '{expected}' and is '{found}'")
            }
            None => {
                let [expected, found] = [&self.expected, &self.found].map(|t| t.lines().count());
                write!(out, "there should be {expected} lines and are {found}")
            }
        }
    }
}
