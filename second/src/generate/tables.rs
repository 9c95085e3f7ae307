//! Work tables at, just below and far below what a line needs.

use super::damage::Item;
use super::libraries::{self, Library};
use super::tree::{exp, name, read, Exp};
use super::Writer;
use crate::log::Reply;

/// Whether the line is refused 39 with a work table of this length.
fn too_short(w: &Writer, table: usize, line: &[u8]) -> bool {
    match w.probe(table, line) {
        Some(Reply::Refused { fault, .. }) => fault.number == 39,
        _ => false,
    }
}

/// The shortest table from `low` on with which the line is not refused 39.
fn needed(w: &Writer, low: usize, line: &[u8]) -> usize {
    let (mut low, mut high) = (low, 32_768);
    while low < high {
        let middle = (low + high) / 2;
        if too_short(w, middle, line) {
            low = middle + 1;
        } else {
            high = middle;
        }
    }
    low
}

/// Declares a family of so many arguments that bringing it is most of the work of a
/// text; gives an instance of it. A library begins with a type and its first object.
fn wide(w: &mut Writer, library: &Library) -> Exp {
    let (base, object) = (&library.constants[0].0, &library.constants[1].0);
    let many = 10 + w.chance.below(8);
    let kind = read(&(format!("{base} -> ").repeat(many) + "type"));
    w.names.push(("wide".to_string(), "_".to_string()));
    let line = Item::Declare("wide".to_string(), kind).line(w);
    w.line(line);
    read(&("wide".to_string() + &format!(" {object}").repeat(many)))
}

/// A line of few bytes that asks to bring much, or is refused before it would.
fn heavy(w: &mut Writer, family: &Exp, base: &str) -> Item {
    let heads = w.constants();
    let (head, fresh) = (w.chance.pick(&heads).clone(), w.chance.fresh());
    let both = exp!("{family} -> {family}");
    match w.chance.below(7) {
        0 => Item::Declare(fresh, both),
        1 => Item::Declare(fresh, exp!("{{x:{family}}} x")),
        2 => Item::Declare(fresh, name(&head)),
        3 => Item::Claim(name(base), name(&head)),
        4 => Item::Claim(both, name(&head)),
        5 => Item::Claim(both, exp!("[x] {head}")),
        _ => Item::Claim(both, exp!("[x] x")),
    }
}

pub fn tables(w: &mut Writer, turn: usize) {
    let library = libraries::library(turn % 5, &mut w.chance);
    w.dress(&library, true);
    w.declare_all(&library, 0);
    let family = wide(w, &library);
    let mut room = 45;
    while room > 0 {
        let item = match w.chance.below(2) {
            0 => heavy(w, &family, &library.constants[0].0),
            _ => w.item(&library),
        };
        let line = if w.chance.one_in(4) { item.damaged(w) } else { item.line(w) };
        let operand = line.iter().position(|&b| b == b' ').map_or(0, |i| line.len() - i - 1);
        let bytes = operand.saturating_sub(usize::from(matches!(item, Item::Claim(..))));
        let least = 2 * bytes;
        let enough = needed(w, least, &line);
        let span = enough - least;
        let mut lengths = vec![enough + 1, enough, enough.saturating_sub(1)];
        if w.chance.one_in(3) {
            lengths.extend([0, 1, 32_769, 65_536, least, least.saturating_sub(1)]);
            lengths.push(32_768);
        }
        if span > 0 && span <= room {
            lengths.extend(least..enough);
        } else if span > 0 {
            for _ in 0..4 + w.chance.below(12) {
                lengths.push(least + w.chance.below(span));
            }
        }
        // Short tables first: an accepted declaration is not new afterwards.
        lengths.sort();
        lengths.dedup();
        for length in &lengths {
            w.line(format!("table {length}"));
            w.line(&line);
        }
        room = room.saturating_sub(lengths.len());
    }
}
