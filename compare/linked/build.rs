//! Links the project's archives, from where `build` puts those that `rt lib` makes or from the
//! folder that the variable ARCHIVES names. With the feature `timing` it links copies of them too, which do
//! without the test of soundness, or without all tests of the gate.

use std::{
    env, fs,
    path::{Path, PathBuf},
};

mod untested;

use untested::{Says, Test};

const WRITTEN: &str = "target/archives";
const ARCHIVES: [&str; 3] = ["linked_list", "linked_buddy", "linked_rank"];
/// Whether every heap is in 01's table is a part of test 1, which the exported calls ask ahead of the
/// gate.
const HEAPS: Test = (".text.wire_account::heaps_in_table", Says::Yes);
/// The copies: of which archive, the word that their names begin with, and the functions that are
/// tests.
const COPIES: [(&str, &str, &[Test]); 4] = [
    ("linked_list", "untested3", &[(".text.freelist_test::is_sound", Says::Yes)]),
    ("linked_buddy", "untested3", &[(".text.buddy_test::is_sound", Says::Yes)]),
    ("linked_list", "ungated14", &[(".text.freelist_gate::gating::gate", Says::Go), HEAPS]),
    ("linked_buddy", "ungated14", &[(".text.buddy_gate::gating::gate", Says::Go), HEAPS]),
];

fn main() {
    let named = env::var("ARCHIVES").unwrap_or_else(|_| WRITTEN.into());
    let folder = fs::canonicalize(&named).unwrap_or_else(|error| panic!("{named}: {error}"));
    println!("cargo::rerun-if-env-changed=ARCHIVES");
    println!("cargo::rustc-link-search=native={}", folder.display());
    for name in ARCHIVES {
        println!("cargo::rustc-link-lib=static={name}");
        println!("cargo::rerun-if-changed={}/lib{name}.a", folder.display());
    }
    if env::var_os("CARGO_FEATURE_TIMING").is_some() {
        println!("cargo::rerun-if-changed=untested.rs");
        // An emulator tells addresses: they are those of the file only if it is loaded where it says.
        println!("cargo::rustc-link-arg-bin=count=-no-pie");
        link_copies(&folder);
    }
    println!("cargo::rerun-if-changed=build.rs");
}

/// Writes the copies into the folder of this build, and links them from there.
fn link_copies(folder: &Path) {
    let out = PathBuf::from(env::var_os("OUT_DIR").expect("cargo names a folder"));
    println!("cargo::rustc-link-search=native={}", out.display());
    for (name, word, tests) in COPIES {
        let path = folder.join(format!("lib{name}.a"));
        let archive = fs::read(&path).unwrap_or_else(|error| panic!("{}: {error}", path.display()));
        let copy = untested::copy(&archive, word, tests)
            .unwrap_or_else(|error| panic!("{}: {error}", path.display()));
        fs::write(out.join(format!("lib{name}_{word}_for_timing_only.a")), copy)
            .unwrap_or_else(|error| panic!("{}: {error}", out.display()));
        println!("cargo::rustc-link-lib=static={name}_{word}_for_timing_only");
    }
}
