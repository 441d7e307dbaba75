//! Refuses to build from crate files that aren't the published ones, and prepares the crate's root.

use std::{env, error::Error, fs, path::Path, process::Command};

const CRATE_ROOT: &str = "../docs/src/src/lib.rs.txt";

fn main() -> Result<(), Box<dyn Error>> {
    println!("cargo::rerun-if-changed=../docs/src/src");
    println!("cargo::rerun-if-changed=hashes.txt");

    let hashes = Command::new("sha256sum")
        .args(["--check", "--strict", "--quiet", "hashes.txt"])
        .status()?;
    if !hashes.success() {
        return Err("a crate file differs from hashes.txt".into());
    }

    let root = fs::read_to_string(CRATE_ROOT)?;
    let out = Path::new(&env::var("OUT_DIR")?).join("crate_root.rs");
    fs::write(out, includable(&root))?;
    Ok(())
}

/// The crate's root less the three kinds of line that `include!` can't carry: inner
/// documentation, inner attributes, and `mod` lines, which name files that end in `.rs`.
fn includable(root: &str) -> String {
    let kept = root.lines().filter(|line| {
        let module = line.starts_with("mod ") && line.ends_with(';');
        !(line.starts_with("//!") || line.starts_with("#![") || module)
    });
    kept.flat_map(|line| [line, "\n"]).collect()
}
