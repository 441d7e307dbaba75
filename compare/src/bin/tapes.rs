//! Writes random tapes of a seed into target/tapes, of one store each or of several.

use {
    compare::generator,
    std::{env, fs, io, process::ExitCode},
};

const FOLDER: &str = "target/tapes";

fn main() -> io::Result<ExitCode> {
    let arguments: Vec<String> = env::args().skip(1).collect();
    let stores = arguments.first().is_some_and(|first| first == "stores");
    let numbers = arguments.iter().skip(usize::from(stores)).map(|text| text.parse().ok());
    let [Some(seed), Some(count)] = numbers.collect::<Vec<Option<u64>>>()[..] else {
        eprintln!("tapes SEED COUNT | tapes stores SEED COUNT");
        return Ok(ExitCode::FAILURE);
    };
    fs::create_dir_all(FOLDER)?;
    for number in 0..count {
        let (name, tape) = match stores {
            true => ("shelf", generator::shelf_tape(seed, number)),
            false => ("random", generator::tape(seed, number)),
        };
        fs::write(format!("{FOLDER}/{name}-{seed}-{number}.tape"), tape)?;
    }
    Ok(ExitCode::SUCCESS)
}
