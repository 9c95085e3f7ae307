//! The second checker: replays logs, makes logs from seeds, and holds a program and definitions
//! to its own answers.

use second::{compare, deep, generate, lemmas, replay};
use std::io::{self, Read, Write};
use std::process::ExitCode;
use std::str::FromStr;

const USAGE: &str = "usage: second replay [FILE]
       second generate SEED
       second compare PROGRAM COUNT FIRST [FILE...]
       second lemmas cases COUNT SEED
       second lemmas logs LONGEST SEED...";

fn number<T: FromStr>(word: &str) -> Result<T, String> {
    word.parse().map_err(|_| USAGE.to_string())
}

fn read(from: &mut dyn Read) -> io::Result<Vec<u8>> {
    let mut bytes = Vec::new();
    from.read_to_end(&mut bytes)?;
    Ok(bytes)
}

fn print(bytes: &[u8]) -> Result<bool, String> {
    let written = io::stdout().write_all(bytes);
    written.map(|()| true).map_err(|error| error.to_string())
}

fn answer(log: io::Result<Vec<u8>>) -> Result<bool, String> {
    let bytes = log.map_err(|error| format!("cannot read: {error}"))?;
    print(replay(&bytes).as_bytes())
}

/// Carries out one command. True if all is well, an error if it cannot be carried out.
fn command(words: &[&str]) -> Result<bool, String> {
    match words {
        ["replay"] => answer(read(&mut io::stdin())),
        ["replay", file] => answer(std::fs::read(file)),
        ["generate", seed] => print(&generate::log(number(seed)?)),
        ["compare", program, count, first, files @ ..] => {
            let outcome = compare::compare(program, number(count)?, number(first)?, files);
            outcome.map_err(|error| format!("cannot read: {error}"))
        }
        ["lemmas", "cases", count, seed] => {
            print(lemmas::cases(number(count)?, number(seed)?).as_bytes())
        }
        ["lemmas", "logs", longest, seeds @ ..] => {
            let seeds: Result<Vec<u64>, String> = seeds.iter().map(|seed| number(seed)).collect();
            print(lemmas::logs(number(longest)?, &seeds?).as_bytes())
        }
        _ => Err(USAGE.to_string()),
    }
}

fn main() -> ExitCode {
    let words: Vec<String> = std::env::args().skip(1).collect();
    let work = move || command(&words.iter().map(String::as_str).collect::<Vec<_>>());
    match deep(work) {
        Ok(true) => ExitCode::SUCCESS,
        Ok(false) => ExitCode::FAILURE,
        Err(message) => {
            eprintln!("second: {message}");
            ExitCode::from(2)
        }
    }
}
