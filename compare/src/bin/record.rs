//! Writes the recorded tapes and the crate's answers to them.

fn main() -> std::io::Result<()> {
    compare::runs::recorded::record()
}
