//! Logs of requests, drawn from a seed: libraries with claims that hold, damaged
//! lines, and the edges of reading, stores, tables and the log format.

mod damage;
mod edges;
mod higher;
mod lambda;
mod libraries;
mod logic;
mod numbers;
pub mod random;
mod tables;
mod tree;

use crate::log::{Reply, Session};
use damage::Item;
use libraries::Library;
use random::Chance;
use tree::{Exp, Printer, Style};

/// The log of a seed. Ten seeds in a row cover all kinds of logs.
pub fn log(seed: u64) -> Vec<u8> {
    let mut w = Writer::new(seed);
    let turn = (seed / 10) as usize;
    match seed % 10 {
        5 => edges::reading(&mut w),
        6 => edges::stores(&mut w, turn),
        7 => edges::noise(&mut w, turn),
        8 => tables::tables(&mut w, turn),
        9 => with_library(&mut w, turn % 5, 6),
        kind => with_library(&mut w, kind as usize, 1),
    }
    if w.chance.one_in(10) {
        w.log.pop();
    }
    w.log
}

/// Writes a log and carries it out at the same time.
struct Writer {
    chance: Chance,
    log: Vec<u8>,
    session: Session,
    /// The constants' names in the makers, and the names that the log has for them.
    names: Vec<(String, String)>,
    /// Names for binders.
    pool: Vec<String>,
    style: Style,
}

impl Writer {
    fn new(seed: u64) -> Writer {
        Writer {
            chance: Chance::new(seed),
            log: Vec::new(),
            session: Session::new(),
            names: Vec::new(),
            pool: ["x", "y", "x'", "_", "type'"].map(String::from).to_vec(),
            style: Style::Plain,
        }
    }

    fn line(&mut self, line: impl AsRef<[u8]>) -> Option<Reply> {
        let mut line = line.as_ref().to_vec();
        line.retain(|&b| b != 10);
        let reply = self.session.take(&line);
        self.log.append(&mut line);
        self.log.push(10);
        reply
    }

    /// What a line would answer with a work table of this length.
    fn probe(&self, table: usize, line: &[u8]) -> Option<Reply> {
        let mut session = self.session.clone();
        session.take(format!("table {table}").as_bytes());
        session.take(line)
    }

    fn count(&self) -> usize {
        match self.probe(0, b"count") {
            Some(Reply::Count(count)) => count,
            _ => 0,
        }
    }

    /// The makers' names of all constants.
    fn constants(&self) -> Vec<String> {
        self.names.iter().map(|(from, _)| from.clone()).collect()
    }

    fn outward(&self, name: &str) -> String {
        let found = self.names.iter().find(|(from, _)| from == name);
        found.map_or(name, |(_, to)| to).to_string()
    }

    fn text(&mut self, e: &Exp) -> String {
        let (names, pool, style) = (&self.names, &self.pool, self.style);
        let chance = &mut self.chance;
        let mut text = Printer { chance, names, pool, style }.print(e);
        if style == Style::Loose && self.chance.one_in(10) {
            text.push_str("% (\u{80}\u{3}x");
        }
        text
    }

    /// Chooses the outward names, the binders' names and the style.
    fn dress(&mut self, library: &Library, short: bool) {
        let how = if short { 0 } else { 1 + self.chance.below(4) };
        self.style = match how {
            0 => Style::Tight,
            1 => Style::Loose,
            _ => *self.chance.pick(&[Style::Plain, Style::Plain, Style::Loose]),
        };
        let letters: Vec<char> = ('a'..='z').chain('A'..='Z').collect();
        let turn = self.chance.below(letters.len());
        for (i, (name, _)) in library.constants.iter().enumerate() {
            let module = self.chance.word("|m/|a/b/|_/|m//|Base'/");
            let outward = match how {
                0 => letters[(turn + i) % letters.len()].to_string(),
                1 => format!("{module}{name}"),
                2 if i % 7 == turn % 7 => format!("{name:_<32}"),
                _ => name.clone(),
            };
            self.names.push((name.clone(), outward));
        }
        if short {
            self.pool = letters[..12].iter().map(char::to_string).collect();
        } else {
            let some = self.names.iter().step_by(3).map(|(_, to)| to.clone());
            self.pool.extend(some);
        }
    }

    /// A declaration of a new name, or a claim; it holds in most cases.
    fn item(&mut self, library: &Library) -> Item {
        let fresh = self.chance.fresh();
        match ((library.claim)(&mut self.chance), self.chance.below(6)) {
            (Some((statement, _)), 0) => Item::Declare(fresh, statement),
            (Some((statement, proof)), _) => Item::Claim(statement, proof),
            (None, _) => Item::Declare(fresh, Exp::Type),
        }
    }

    fn query(&mut self) {
        let count = self.count();
        let n = self.chance.below(count + 2);
        let line = match self.chance.below(8) {
            0 => "count".to_string(),
            1 | 2 => {
                let known = self.names.iter().map(|(_, to)| to.clone()).chain(["no".into()]);
                format!("look-up {}", self.chance.pick(&known.collect::<Vec<_>>()))
            }
            3 | 4 => format!("rests-on {n}"),
            5 | 6 => format!("carries {n}"),
            _ => format!("numbers {}", self.chance.pick(&[count, count, 1024, count / 2])),
        };
        self.line(line);
    }

    fn declare_all(&mut self, library: &Library, damages: usize) {
        for (name, e) in &library.constants {
            let item = Item::Declare(name.clone(), e.clone());
            if self.chance.below(12) < damages {
                let line = item.damaged(self);
                // A damaged constant may not take the place of the sound one.
                if matches!(self.probe(32_768, &line), Some(Reply::Refused { .. })) {
                    self.line(line);
                }
            }
            let line = item.line(self);
            self.line(line);
        }
    }
}

/// A library, then claims, declarations and queries, of ten about `damages` damaged.
fn with_library(w: &mut Writer, which: usize, damages: usize) {
    if let Some(store) = w.chance.pick(&[None, Some("store flat"), Some("store module")]) {
        w.line(store);
    }
    let library = libraries::library(which, &mut w.chance);
    w.dress(&library, false);
    w.declare_all(&library, damages);
    let end = 20 + w.chance.below(25);
    for turn in 0..end {
        if turn + 6 == end {
            w.line("seal");
        }
        let item = w.item(&library);
        let line = match w.chance.below(10) {
            n if n < damages => item.damaged(w),
            _ => item.line(w),
        };
        w.line(line);
        if w.chance.one_in(3) {
            w.query();
        }
    }
    w.line("seal");
}
