//! Logs of requests to one library.

use crate::fault::Fault;
use crate::library::Library;
use crate::store::Kind;

/// The greatest length of a table that a log can set.
const LENGTH: usize = 65536;
/// The greatest number of a constant that a log can ask for.
const CONSTANT: usize = 65535;

/// The answer to a line that is not passed over.
#[derive(Clone, Debug, PartialEq, Eq)]
pub enum Reply {
    Store(Kind),
    Table(usize),
    Numbers(usize),
    Declared { constant: usize, work: usize },
    Claimed { work: usize },
    Count(usize),
    LookUp(Option<usize>),
    Listed { word: &'static str, numbers: Vec<usize> },
    Sealed,
    Refused { word: &'static str, fault: Fault },
    Barred { word: &'static str },
    NotARequest,
    LeftOut { word: &'static str },
}

impl Reply {
    /// What stands after the line's number, the colon and the space.
    pub fn line(&self) -> String {
        match self {
            Reply::Store(kind) => format!("store {}", kind.word()),
            Reply::Table(length) => format!("table {length}"),
            Reply::Numbers(length) => format!("numbers {length}"),
            Reply::Declared { constant, work } => {
                format!("declare accepted: constant {constant}, work {work}")
            }
            Reply::Claimed { work } => format!("claim accepted: work {work}"),
            Reply::Count(count) => format!("count {count}"),
            Reply::LookUp(Some(constant)) => format!("look-up {constant}"),
            Reply::LookUp(None) => "look-up none".to_string(),
            Reply::Listed { word, numbers } => {
                let mut line = format!("{word} {}:", numbers.len());
                for n in numbers {
                    line.push_str(&format!(" {n}"));
                }
                line
            }
            Reply::Sealed => "sealed".to_string(),
            Reply::Refused { word, fault } => format!(
                "{word} refused {} layer {} text {} place {} judgement {}",
                fault.number,
                fault.layer(),
                fault.text,
                fault.place,
                fault.judgement
            ),
            Reply::Barred { word } => format!("{word} not carried out: the library is sealed"),
            Reply::NotARequest => "not a request".to_string(),
            Reply::LeftOut { word } => format!("{word} not carried out: not served yet"),
        }
    }
}

/// A log that is being replayed.
#[derive(Clone, Debug)]
pub struct Session {
    library: Library,
    sealed: bool,
    /// Was there a request?
    begun: bool,
    /// The length of the work table.
    table: usize,
    /// The length of the number table.
    numbers: usize,
    lines: usize,
    accepted: usize,
    refused: usize,
    answered: usize,
    not_carried_out: usize,
}

impl Session {
    pub fn new() -> Session {
        Session {
            library: Library::new(Kind::Flat),
            sealed: false,
            begun: false,
            table: 32768,
            numbers: 1024,
            lines: 0,
            accepted: 0,
            refused: 0,
            answered: 0,
            not_carried_out: 0,
        }
    }

    /// Takes the next line of a log, without its line feed. None if the line is passed
    /// over.
    pub fn take(&mut self, line: &[u8]) -> Option<Reply> {
        self.lines += 1;
        if passed_over(line) {
            return None;
        }
        let reply = self.answer(line).unwrap_or(Reply::NotARequest);
        self.tally(&reply);
        Some(reply)
    }

    /// Takes a line that is a declare or a claim without carrying it out. It counts as a
    /// request.
    pub fn leave_out(&mut self, line: &[u8]) -> Reply {
        self.lines += 1;
        let word = match divide(line).0 {
            b"declare" => "declare",
            _ => "claim",
        };
        let reply = Reply::LeftOut { word };
        self.tally(&reply);
        reply
    }

    /// The lines so far, those passed over included.
    pub fn lines_taken(&self) -> usize {
        self.lines
    }

    /// The last line, without its line feed.
    pub fn closing(&self) -> String {
        format!(
            "{} accepted, {} refused, {} answered, {} not carried out, {} constants",
            self.accepted,
            self.refused,
            self.answered,
            self.not_carried_out,
            self.library.count()
        )
    }

    pub fn library(&self) -> &Library {
        &self.library
    }

    /// The length of the work table.
    pub fn table(&self) -> usize {
        self.table
    }

    /// The length of the number table.
    pub fn numbers(&self) -> usize {
        self.numbers
    }

    pub fn is_sealed(&self) -> bool {
        self.sealed
    }

    /// Carries out the request of a line. None if the line is no request.
    fn answer(&mut self, line: &[u8]) -> Option<Reply> {
        let (word, operand) = divide(line);
        match word {
            b"store" => {
                let kinds = [Kind::Flat, Kind::Module];
                let kind = kinds.into_iter().find(|k| k.word().as_bytes() == operand)?;
                if self.begun {
                    return None;
                }
                self.library = Library::new(kind);
                Some(Reply::Store(kind))
            }
            b"table" => {
                self.table = decimal(operand, LENGTH)?;
                Some(Reply::Table(self.table))
            }
            b"numbers" => {
                self.numbers = decimal(operand, LENGTH)?;
                Some(Reply::Numbers(self.numbers))
            }
            b"declare" if self.sealed => Some(Reply::Barred { word: "declare" }),
            b"declare" => Some(match self.library.declare(operand, self.table) {
                Ok((constant, work)) => Reply::Declared { constant, work },
                Err(fault) => Reply::Refused { word: "declare", fault },
            }),
            b"claim" => {
                let sign = operand.iter().position(|byte| *byte == b'=')?;
                let (statement, proof) = (&operand[..sign], &operand[sign + 1..]);
                Some(match self.library.claim(statement, proof, self.table) {
                    Ok(work) => Reply::Claimed { work },
                    Err(fault) => Reply::Refused { word: "claim", fault },
                })
            }
            b"count" if operand.is_empty() => Some(Reply::Count(self.library.count())),
            b"look-up" => Some(Reply::LookUp(self.library.look_up(operand))),
            b"rests-on" => {
                let n = decimal(operand, CONSTANT)?;
                let answer = self.library.rests_on(n, self.numbers);
                Some(listed("rests-on", answer))
            }
            b"carries" => {
                let n = decimal(operand, CONSTANT)?;
                let answer = self.library.carries(n, self.numbers);
                Some(listed("carries", answer))
            }
            b"seal" if operand.is_empty() => {
                if self.sealed {
                    return Some(Reply::Barred { word: "seal" });
                }
                self.sealed = true;
                Some(Reply::Sealed)
            }
            _ => None,
        }
    }

    /// Counts a reply for the last line.
    fn tally(&mut self, reply: &Reply) {
        self.begun |= *reply != Reply::NotARequest;
        match reply {
            Reply::Store(_) | Reply::Table(_) | Reply::Numbers(_) => {}
            Reply::Declared { .. } | Reply::Claimed { .. } => self.accepted += 1,
            Reply::Refused { .. } => self.refused += 1,
            Reply::Count(_) | Reply::LookUp(_) | Reply::Listed { .. } | Reply::Sealed => {
                self.answered += 1
            }
            Reply::Barred { .. } | Reply::NotARequest | Reply::LeftOut { .. } => {
                self.not_carried_out += 1
            }
        }
    }
}

/// Has the line only blanks, or is `%` its first byte?
fn passed_over(line: &[u8]) -> bool {
    line.first() == Some(&b'%')
        || line.iter().all(|byte| matches!(byte, b'\t' | b'\n' | b'\r' | b' '))
}

/// The word and the operand of a line.
pub fn divide(line: &[u8]) -> (&[u8], &[u8]) {
    match line.iter().position(|byte| *byte == b' ') {
        Some(space) => (&line[..space], &line[space + 1..]),
        None => (line, &[]),
    }
}

/// A decimal of 1 to 9 digits, if it is at most `greatest`.
pub fn decimal(operand: &[u8], greatest: usize) -> Option<usize> {
    if !(1..=9).contains(&operand.len()) || !operand.iter().all(u8::is_ascii_digit) {
        return None;
    }
    let number = operand.iter().fold(0, |n, digit| 10 * n + usize::from(digit - b'0'));
    (number <= greatest).then_some(number)
}

/// The reply to a rests-on or a carries.
fn listed(word: &'static str, answer: Result<Vec<usize>, Fault>) -> Reply {
    match answer {
        Ok(numbers) => Reply::Listed { word, numbers },
        Err(fault) => Reply::Refused { word, fault },
    }
}

/// A log cut into lines. A line feed at the very end begins no further line.
pub fn lines(log: &[u8]) -> Vec<&[u8]> {
    if log.is_empty() {
        return Vec::new();
    }
    let log = log.strip_suffix(b"\n").unwrap_or(log);
    log.split(|byte| *byte == b'\n').collect()
}

/// The whole output for a log, each line ended by a line feed.
pub fn replay(log: &[u8]) -> String {
    let mut session = Session::new();
    let mut output = String::new();
    for line in lines(log) {
        if let Some(reply) = session.take(line) {
            output.push_str(&format!("{}: {}\n", session.lines_taken(), reply.line()));
        }
    }
    output.push_str(&session.closing());
    output.push('\n');
    output
}
