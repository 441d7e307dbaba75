//! The recorded set: made anew it is the same, the plain implementation answers as recorded, and
//! each of its faults is noticed by some tape.

use {
    crate::{
        difference::Difference,
        plain::{self, Fault, FAULTS},
        recorded::{self, Recorded},
        runs::{verdict, Verdict},
    },
    std::{
        collections::BTreeSet,
        fs, io,
        path::{Path, PathBuf},
    },
};

/// Where the recorded set lies: tapes of one store, and below them those of several.
const FOLDER: &str = "recorded";
const SHELVES: &str = "recorded/stores";

/// Writes the set.
pub fn record() -> io::Result<()> {
    for (folder, set) in sets() {
        fs::create_dir_all(folder)?;
        for one in set {
            fs::write(file(folder, &one.name, "tape"), &one.tape)?;
            fs::write(file(folder, &one.name, "answers"), &one.answers)?;
        }
    }
    Ok(())
}

/// Checks the set that lies there.
pub fn run() -> Verdict {
    for (folder, set) in sets() {
        check_files(folder, &set)?;
        println!("{folder}: {} tapes, made anew the same", set.len());
    }
    let set = recorded::all();
    let differences: Vec<_> = set.iter().filter_map(|one| against(one, Fault::None)).collect();
    verdict(&differences)?;
    println!("the plain implementation answers all of them as recorded");
    sensitivity(&set)
}

fn sets() -> [(&'static str, Vec<Recorded>); 2] {
    [(FOLDER, recorded::all()), (SHELVES, recorded::shelves())]
}

/// The files of a folder are exactly those of the set, byte for byte.
fn check_files(folder: &str, set: &[Recorded]) -> Verdict {
    let mut expected = BTreeSet::new();
    for one in set {
        for (ending, bytes) in [("tape", &one.tape[..]), ("answers", one.answers.as_bytes())] {
            let path = file(folder, &one.name, ending);
            if fs::read(&path).ok().as_deref() != Some(bytes) {
                return Err(format!("{} isn't what recording makes", path.display()));
            }
            expected.insert(path);
        }
    }
    let entries = fs::read_dir(folder).map_err(|error| error.to_string())?;
    let paths = entries.filter_map(|entry| Some(entry.ok()?.path()));
    let ours =
        |path: &PathBuf| path.extension().is_some_and(|end| end == "tape" || end == "answers");
    match paths.filter(ours).find(|path| !expected.contains(path)) {
        Some(stray) => Err(format!("{} isn't of the set", stray.display())),
        None => Ok(()),
    }
}

fn file(folder: &str, name: &str, ending: &str) -> PathBuf {
    Path::new(folder).join(format!("{name}.{ending}"))
}

fn against(one: &Recorded, fault: Fault) -> Option<Difference> {
    let found = plain::answers(&one.tape, fault);
    Difference::between(&one.name, &one.tape, one.answers.clone(), found)
}

/// Prints for each fault how many tapes notice it; one that none notices is a failure.
fn sensitivity(set: &[Recorded]) -> Verdict {
    println!("{:<52}{:>8}  first", "fault put into the plain implementation", "noticed");
    let mut unnoticed = Vec::new();
    for (fault, what) in FAULTS {
        let noticed: Vec<_> =
            set.iter().filter(|one| against(one, fault).is_some()).map(|one| &one.name).collect();
        match noticed.first() {
            Some(first) => println!("{what:<52}{:>8}  {first}", noticed.len()),
            None => unnoticed.push(what),
        }
    }
    match unnoticed.is_empty() {
        true => Ok(()),
        false => Err(format!("no recorded tape notices: {}", unnoticed.join("; "))),
    }
}
