//! Modules of lemmas for the prover: each says that a definition in crates/rules/specs gives what
//! the second checker gives. The prover computes both sides.

use crate::log::{decimal, divide, lines, Reply, Session};
use crate::notation::{bytes, expression, list};
use crate::store::Kind;
use crate::{generate, vectors};

const FOR_CASES: &str = "\
use Rattle.std.specs.Prelude.{◌≡◌, refl, true, false}
use Rattle.rules.specs.Expression.{con, idx, typ, pi, lam, app, nil, arg, base, arrow, same}
use Rattle.rules.specs.Substitution.{lift, put, made, lost}
";

const FOR_LOGS: &str = "\
use Rattle.std.specs.Prelude.{◌≡◌, refl, true, false, [], ◌∷◌, ◌++◌, codes, Some, None}
use Rattle.rules.specs.Book.{Entry, Book}
use Rattle.rules.specs.Expression.{con, idx, typ, pi, lam, app, nil, arg}
use Rattle.rules.specs.Log.{declare, claim, count, look_up, ask_rests_on, ask_carries, seal}
use Rattle.rules.specs.Log.{accepted, proved, counted, found, listed, sealed, refused, barred}
use Rattle.rules.specs.Log.{reply, next}
use Rattle.rules.specs.Reading.{expect, head, read_exp, reading, declaring}
use Rattle.rules.specs.Rule.{flat, modular}
use Rattle.rules.specs.Token.{next_token}
";

/// The reading functions, which the prover unfolds only where it is told to.
const UNFOLDING: &str = "unfolding next_token expect head read_exp reading declaring\n";

/// A module that is being written.
struct Module {
    text: String,
    /// The constants of the log at hand that stand in it as entries.
    entries: usize,
    /// The count of constants of the newest book in it.
    book: Option<usize>,
}

impl Module {
    fn new(uses: &str) -> Module {
        Module { text: uses.to_string(), entries: 0, book: None }
    }

    fn lemma(&mut self, name: &str, left: &str, right: &str, how: &str) {
        self.text += &format!("\npub {name} : {left} ≡ {right}\n{how}{name} = refl\n");
    }

    fn value(&mut self, name: &str, class: &str, value: &str) {
        self.text += &format!("\nabbrev pub {name} : {class}\n{name} = {value}\n");
    }

    /// The state of a log, with its book by name.
    fn state(&mut self, seed: u64, session: &Session) -> String {
        let store = session.library().store();
        let entry = |n| format!("seed_{seed}_entry_{n}");
        for n in self.entries..store.count() {
            let name = bytes(&store.entry(n).name);
            let classifier = expression(&store.entry(n).classifier, &mut Vec::new());
            let value = format!("record {{ name = {name}; classifier = {classifier} }}");
            self.value(&entry(n), "Entry", &value);
        }
        self.entries = store.count();
        let book = format!("seed_{seed}_book_{}", store.count());
        if self.book != Some(store.count()) {
            self.value(&book, "Book", &list((0..store.count()).map(entry)));
            self.book = Some(store.count());
        }
        format!("(record {{ book = {book}; is_sealed = {} }})", session.is_sealed())
    }

    /// The lemmas of one log: what its lines answer, and the states after them. In every second
    /// line, line feeds stand for the carriage returns: a text may hold them, a log cannot.
    fn log(&mut self, seed: u64, longest: usize) {
        let log = generate::log(seed);
        let mut session = Session::new();
        (self.entries, self.book) = (0, None);
        for (i, line) in lines(&log).into_iter().enumerate() {
            let mut line = line.to_vec();
            if i % 2 == 1 {
                line.iter_mut().filter(|byte| **byte == b'\r').for_each(|byte| *byte = b'\n');
            }
            let before = session.clone();
            let Some(reply) = session.take(&line) else { continue };
            let (Some(call), Some(answer)) = (call(&line, &before), answer(&reply)) else {
                continue;
            };
            if line.len() > longest && !refused_by_size(&reply) {
                continue;
            }
            let name = format!("seed_{seed}_line_{}", session.lines_taken());
            let rule = match before.library().store().kind() {
                Kind::Flat => "flat",
                Kind::Module => "modular",
            };
            let state = self.state(seed, &before);
            self.lemma(&name, &format!("reply {rule} {state} ({call})"), &answer, UNFOLDING);
            if matches!(reply, Reply::Declared { .. } | Reply::Sealed) {
                let after = self.state(seed, &session);
                let left = format!("next {rule} {state} ({call})");
                self.lemma(&format!("{name}_next"), &left, &after, UNFOLDING);
            }
        }
    }
}

/// Whether the answer comes before the texts are read.
fn refused_by_size(reply: &Reply) -> bool {
    matches!(reply, Reply::Refused { fault, .. } if [11, 12].contains(&fault.number))
}

/// The line of a log that a request stands for.
fn call(line: &[u8], session: &Session) -> Option<String> {
    let (word, operand) = divide(line);
    let (table, numbers) = (session.table(), session.numbers());
    Some(match word {
        b"declare" => format!("declare {} {table}", bytes(operand)),
        b"claim" => {
            let sign = operand.iter().position(|byte| *byte == b'=')?;
            let (statement, proof) = (bytes(&operand[..sign]), bytes(&operand[sign + 1..]));
            format!("claim {statement} {proof} {table}")
        }
        b"count" => "count".to_string(),
        b"look-up" => format!("look_up {}", bytes(operand)),
        b"rests-on" => format!("ask_rests_on {} {numbers}", decimal(operand, usize::MAX)?),
        b"carries" => format!("ask_carries {} {numbers}", decimal(operand, usize::MAX)?),
        b"seal" => "seal".to_string(),
        _ => return None,
    })
}

/// The reply of a log that an answer stands for.
fn answer(reply: &Reply) -> Option<String> {
    Some(match reply {
        Reply::Declared { constant, work } => format!("accepted {constant} {work}"),
        Reply::Claimed { work } => format!("proved {work}"),
        Reply::Count(count) => format!("counted {count}"),
        Reply::LookUp(Some(constant)) => format!("found (Some {constant})"),
        Reply::LookUp(None) => "found None".to_string(),
        Reply::Listed { numbers, .. } => format!("listed {}", list(numbers)),
        Reply::Sealed => "sealed".to_string(),
        Reply::Refused { fault, .. } => format!(
            "refused (record {{ layer = {}; number = {}; text = {}; place = {}; judgement = {} }})",
            fault.layer(),
            fault.number,
            fault.text,
            fault.place,
            fault.judgement
        ),
        Reply::Barred { .. } => "barred".to_string(),
        _ => return None,
    })
}

/// Lemmas about cases of put, lift and equality.
pub fn cases(count: usize, seed: u64) -> String {
    let mut module = Module::new(FOR_CASES);
    for (i, case) in vectors::cases(count, seed).iter().enumerate() {
        module.lemma(&format!("case_{i}"), &case.call, &case.result, "");
    }
    module.text
}

/// Lemmas about the lines of the logs of some seeds. A line of more than `longest` bytes that has
/// to be read has none, since the prover computes only so much for one lemma.
pub fn logs(longest: usize, seeds: &[u64]) -> String {
    let mut module = Module::new(FOR_LOGS);
    for seed in seeds {
        module.log(*seed, longest);
    }
    module.text
}
