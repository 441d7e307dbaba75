//! Prints the crate's answers for a tape, of one store or of several.

use {
    compare::{counter, shelf},
    std::{env, fs, process::ExitCode},
};

fn main() -> ExitCode {
    let arguments: Vec<String> = env::args().skip(1).collect();
    let arguments: Vec<&str> = arguments.iter().map(String::as_str).collect();
    let (answers, path): (fn(&[u8]) -> String, _) = match arguments[..] {
        [path] => (counter::answers, path),
        ["stores", path] => (shelf::answers, path),
        _ => {
            eprintln!("oracle TAPE | oracle stores TAPE");
            return ExitCode::FAILURE;
        }
    };
    match fs::read(path) {
        Ok(tape) => {
            print!("{}", answers(&tape));
            ExitCode::SUCCESS
        }
        Err(error) => {
            eprintln!("{path}: {error}");
            ExitCode::FAILURE
        }
    }
}
