//! Runs a program on generated logs and holds what it prints to the second checker.

use crate::generate;
use crate::log::{lines, Reply, Session};
use std::collections::BTreeMap;
use std::io::{self, Write};
use std::process::{Command, Stdio};

/// The refusals by which the program already answers a declare or a claim. To any other declare
/// or claim it may say that it is not served yet; that line is then left out and counted.
const SERVED: [u32; 2] = [11, 12];

/// The refusals that a log can bring about. 41 is the answer of a store's add alone. 38 is an
/// answer to an argument that is already checked, whose put has a result in every known case.
const POSSIBLE: [u32; 19] =
    [11, 12, 13, 14, 15, 16, 21, 31, 32, 33, 34, 35, 36, 37, 39, 42, 43, 51, 52];

/// From so many logs on, each possible refusal has to be among the answers.
const ENOUGH: u64 = 100;

/// So many differences are printed.
const SHOWN: usize = 10;

/// What the comparison of one log comes to: the lines compared, the lines left out, and the
/// first difference in words.
#[derive(Default)]
pub struct Outcome {
    pub compared: usize,
    pub left_out: usize,
    pub difference: Option<String>,
}

/// Whether the program may leave this answer out.
fn may_leave_out(reply: &Reply) -> bool {
    match reply {
        Reply::Declared { .. } | Reply::Claimed { .. } => true,
        Reply::Refused { word, fault } => {
            (*word == "declare" || *word == "claim") && !SERVED.contains(&fault.number)
        }
        _ => false,
    }
}

/// Whether a printed line is the expected one. A refusal goes on with a reason in words.
fn agrees(printed: &[u8], expected: &str, reply: &Reply) -> bool {
    match (printed.strip_prefix(expected.as_bytes()), reply) {
        (Some(rest), Reply::Refused { .. }) => rest.len() > 3 && rest.starts_with(b" - "),
        (Some(rest), _) => rest.is_empty(),
        (None, _) => false,
    }
}

fn shown(printed: Option<&[u8]>) -> String {
    match printed {
        Some(bytes) => bytes.escape_ascii().to_string(),
        None => "(no line)".to_string(),
    }
}

/// Compares what was printed for a log with the answers of the second checker. Where the program
/// says that a line is not served yet, the second checker does not carry it out either, so that
/// all other lines can be compared.
pub fn compare_log(log: &[u8], output: &[u8]) -> Outcome {
    let mut outcome = Outcome::default();
    let mut session = Session::new();
    let mut printed = lines(output).into_iter();
    for line in lines(log) {
        let before = session.clone();
        let Some(mut reply) = session.take(line) else {
            continue;
        };
        let at = session.lines_taken();
        let got = printed.next();
        let mut expected = format!("{at}: {}", reply.line());
        if may_leave_out(&reply) {
            let mut without = before;
            let left = without.leave_out(line);
            let words = format!("{at}: {}", left.line());
            if got == Some(words.as_bytes()) {
                session = without;
                reply = left;
                expected = words;
                outcome.left_out += 1;
            }
        }
        if !got.is_some_and(|bytes| agrees(bytes, &expected, &reply)) {
            outcome.difference = Some(format!(
                "line {at}: {}\n  program: {}\n  second:  {expected}",
                line.escape_ascii(),
                shown(got)
            ));
            return outcome;
        }
        if !matches!(reply, Reply::LeftOut { .. }) {
            outcome.compared += 1;
        }
    }
    let closing = session.closing();
    let got = printed.next();
    if got != Some(closing.as_bytes()) || printed.next().is_some() || !output.ends_with(b"\n") {
        outcome.difference =
            Some(format!("last line\n  program: {}\n  second:  {closing}", shown(got)));
    } else {
        outcome.compared += 1;
    }
    outcome
}

/// What the program prints when the log is its standard input; an error unless its status is 0.
fn run(program: &str, log: &[u8]) -> io::Result<Vec<u8>> {
    let mut child = Command::new(program).stdin(Stdio::piped()).stdout(Stdio::piped()).spawn()?;
    let mut input = child.stdin.take().expect("standard input is piped");
    // A program that ends before it has read all is told by its status and by what it printed.
    let output = std::thread::scope(|scope| {
        scope.spawn(move || input.write_all(log));
        child.wait_with_output()
    })?;
    if !output.status.success() {
        return Err(io::Error::other(format!("ended with {}", output.status)));
    }
    Ok(output.stdout)
}

/// How often each refusal came, by number, text and judgement, and how many declares and claims
/// were accepted.
#[derive(Default)]
struct Tally {
    refusals: BTreeMap<(u32, u32, u32), usize>,
    accepted: usize,
}

impl Tally {
    /// Counts the answers of the second checker to a log, all of it carried out.
    fn add(&mut self, log: &[u8]) {
        let mut session = Session::new();
        for line in lines(log) {
            match session.take(line) {
                Some(Reply::Refused { fault, .. }) => {
                    let key = (fault.number, fault.text, fault.judgement);
                    *self.refusals.entry(key).or_default() += 1;
                }
                Some(Reply::Declared { .. } | Reply::Claimed { .. }) => self.accepted += 1,
                _ => {}
            }
        }
    }

    fn print(&self) {
        println!("answers of the second checker, all lines carried out:");
        println!("  accepted: {}", self.accepted);
        for ((number, text, judgement), times) in &self.refusals {
            println!("  refused {number} text {text} judgement {judgement}: {times}");
        }
    }

    fn missing(&self) -> Vec<u32> {
        let came = |number: &u32| self.refusals.keys().any(|key| key.0 == *number);
        POSSIBLE.into_iter().filter(|number| !came(number)).collect()
    }
}

/// The sums of a comparison over many logs.
#[derive(Default)]
struct Sums {
    logs: usize,
    compared: usize,
    left_out: usize,
    differing: usize,
    tally: Tally,
}

impl Sums {
    /// Compares the program with the second checker on one log, which `title` names.
    fn add(&mut self, program: &str, title: &str, log: &[u8]) {
        self.tally.add(log);
        let outcome = match run(program, log) {
            Ok(output) => compare_log(log, &output),
            Err(error) => {
                Outcome { difference: Some(format!("{program}: {error}")), ..Outcome::default() }
            }
        };
        self.logs += 1;
        self.compared += outcome.compared;
        self.left_out += outcome.left_out;
        if let Some(difference) = outcome.difference {
            self.differing += 1;
            if self.differing <= SHOWN {
                println!("{title}, {difference}");
            }
        }
    }
}

/// Compares the program with the second checker on the logs of `count` seeds from `first` on and
/// on the logs in the files. Prints the first differences, the answers that came, and a closing
/// count. True if nothing differs and, from enough seeds on, every possible refusal came.
pub fn compare(program: &str, count: u64, first: u64, files: &[&str]) -> io::Result<bool> {
    let mut sums = Sums::default();
    for seed in first..first.saturating_add(count) {
        sums.add(program, &format!("seed {seed}"), &generate::log(seed));
    }
    let missing = sums.tally.missing();
    for file in files {
        sums.add(program, file, &std::fs::read(file)?);
    }
    sums.tally.print();
    let all_came = count < ENOUGH || missing.is_empty();
    if !all_came {
        println!("refusals that never came: {missing:?}");
    }
    println!(
        "{} logs, {} lines compared, {} left out as not served yet, {} logs differ",
        sums.logs, sums.compared, sums.left_out, sums.differing
    );
    Ok(sums.differing == 0 && all_came)
}
