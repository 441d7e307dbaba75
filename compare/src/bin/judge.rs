//! The runs of the judge, by name.

use {
    compare::runs::{random, ranking, recorded, replay, short, stores, Verdict},
    std::{env, path::Path, process::ExitCode, time::Duration},
};

const USAGE: &str = "judge random SEED COUNT | short | stores SEED COUNT | recorded | \
                     rank PROGRAM SEED LISTS PROGRAM-LISTS | replay PROGRAM SEED COUNT SECONDS";

fn main() -> ExitCode {
    let arguments: Vec<String> = env::args().skip(1).collect();
    let arguments: Vec<&str> = arguments.iter().map(String::as_str).collect();
    match run(&arguments) {
        Ok(()) => ExitCode::SUCCESS,
        Err(message) => {
            println!("FAILED: {message}");
            ExitCode::FAILURE
        }
    }
}

fn run(arguments: &[&str]) -> Verdict {
    let number = |text: &str| text.parse::<u64>().map_err(|_| format!("no number: {text}"));
    match *arguments {
        ["random", seed, count] => random::run(number(seed)?, number(count)?),
        ["short"] => short::run(),
        ["stores", seed, count] => stores::run(number(seed)?, number(count)?),
        ["recorded"] => recorded::run(),
        ["rank", program, seed, lists, program_lists] => {
            ranking::run(Path::new(program), number(seed)?, number(lists)?, number(program_lists)?)
        }
        ["replay", program, seed, count, seconds] => {
            let limit = Duration::from_secs(number(seconds)?);
            replay::run(Path::new(program), number(seed)?, number(count)?, limit)
        }
        _ => Err(USAGE.into()),
    }
}
