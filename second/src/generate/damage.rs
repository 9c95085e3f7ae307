//! Lines that hold, and the same lines damaged in tree or in bytes.

use super::random::Chance;
use super::tree::{exp, name, put, size, Exp, Style};
use super::Writer;
use crate::log::Reply;
use Exp::{App, Lam, Pi};

/// A declaration or a claim before it is written out.
#[derive(Clone)]
pub enum Item {
    Declare(String, Exp),
    Claim(Exp, Exp),
}

impl Item {
    pub fn line(&self, w: &mut Writer) -> Vec<u8> {
        match self {
            Item::Declare(name, e) => {
                let text = w.text(e);
                let loose = w.style == Style::Loose && w.chance.one_in(2);
                let blank = if loose { " \t" } else { "" };
                format!("declare {blank}{} : {text}", w.outward(name)).into_bytes()
            }
            Item::Claim(statement, proof) => {
                let left = w.text(statement);
                let sign = if w.style == Style::Plain { " = " } else { "=" };
                format!("claim {left}{sign}{}", w.text(proof)).into_bytes()
            }
        }
    }

    /// The line damaged; one with a head that is not found is mostly tried again.
    pub fn damaged(&self, w: &mut Writer) -> Vec<u8> {
        let mut line = self.damaged_once(w);
        for _ in 0..3 {
            match w.probe(32_768, &line) {
                Some(Reply::Refused { fault, .. }) if fault.number == 21 => {}
                _ => break,
            }
            line = self.damaged_once(w);
        }
        line
    }

    fn damaged_once(&self, w: &mut Writer) -> Vec<u8> {
        let mut item = self.clone();
        let times = if w.chance.one_in(4) { 3 } else { 1 };
        if w.chance.one_in(4) {
            let mut line = item.line(w);
            for _ in 0..times {
                bytes(&mut w.chance, &mut line);
            }
            return line;
        }
        let part = match &mut item {
            Item::Declare(_, e) => e,
            Item::Claim(statement, _) if w.chance.one_in(3) => statement,
            Item::Claim(_, proof) => proof,
        };
        let heads: Vec<String> = w.constants();
        for _ in 0..times {
            tree(&mut w.chance, part, &heads);
        }
        item.line(w)
    }
}

/// Damages a byte behind the word of the line.
fn bytes(chance: &mut Chance, line: &mut Vec<u8>) {
    let start = line.iter().position(|&b| b == b' ').map_or(0, |i| i + 1);
    if line.len() < start + 2 {
        return;
    }
    let i = start + chance.below(line.len() - start);
    let other = line[start + chance.below(line.len() - start)];
    match chance.below(6) {
        0 => drop(line.remove(i)),
        1 => line.insert(i, line[i]),
        2 if i + 1 < line.len() => line.swap(i, i + 1),
        3 => line.truncate(i),
        4 => line.insert(i, other),
        _ => line[i] = other,
    }
}

/// The part that is reached after `left` other parts.
fn part<'a>(e: &'a mut Exp, left: &mut usize) -> Option<&'a mut Exp> {
    if *left == 0 {
        return Some(e);
    }
    *left -= 1;
    match e {
        Exp::Type => None,
        Pi(_, a, b) => part(a, left).or_else(|| part(b, left)),
        Lam(_, body) => part(body, left),
        App(_, args) => args.iter_mut().find_map(|arg| part(arg, left)),
    }
}

/// The names of all binders.
fn binders(e: &Exp, out: &mut Vec<String>) {
    match e {
        Exp::Type => {}
        Pi(x, a, b) => {
            out.extend((!x.is_empty()).then(|| x.clone()));
            binders(a, out);
            binders(b, out);
        }
        Lam(x, body) => {
            out.push(x.clone());
            binders(body, out);
        }
        App(_, args) => args.iter().for_each(|arg| binders(arg, out)),
    }
}

/// Damages one part of the tree, the root more often than its share.
fn tree(chance: &mut Chance, e: &mut Exp, heads: &[String]) {
    let whole = size(e);
    let mut variables = Vec::new();
    binders(e, &mut variables);
    if variables.len() > 1 && chance.one_in(3) {
        // One variable stands where another stood.
        let other = chance.pick(&variables).clone();
        for _ in 0..40 {
            let mut at = chance.below(whole);
            match part(e, &mut at) {
                Some(App(head, _)) if *head != other && variables.contains(head) => {
                    *head = other;
                    return;
                }
                _ => {}
            }
        }
    }
    let mut from = chance.below(whole);
    let copy = part(e, &mut from).expect("a part").clone();
    for _ in 0..20 {
        let mut at = if chance.one_in(8) { 0 } else { chance.below(whole) };
        let part = part(e, &mut at).expect("a part");
        if let Some(new) = change(chance, part, &copy, heads) {
            *part = new;
            return;
        }
    }
}

/// What stands in place of the part, if this damage fits it.
fn change(chance: &mut Chance, part: &Exp, copy: &Exp, heads: &[String]) -> Option<Exp> {
    let head = chance.pick(heads);
    let x = chance.fresh();
    let mut new = part.clone();
    match (chance.below(17), &mut new) {
        // An argument is eta-reduced, an abstraction is added or removed.
        (0..=2, Lam(x, body)) => match &mut **body {
            App(head, args) if head != x && args.last() == Some(&name(x)) => {
                args.pop();
                return Some((**body).clone());
            }
            _ => return put(chance, body, x, &name(head)),
        },
        (3, _) => return Some(exp!("[{x}] {part}")),
        // A spine is made longer, shorter or other.
        (4, App(_, args)) => args.push(copy.clone()),
        (5, App(_, args)) => drop(args.pop()?),
        (6, App(_, args)) if !args.is_empty() => drop(args.remove(chance.below(args.len()))),
        (7, App(_, args)) if args.len() > 1 => {
            let i = chance.below(args.len() - 1);
            args.swap(i, i + 1);
        }
        (8, App(old, _)) => *old = head.clone(),
        // Another form stands here.
        (9 | 14 | 15, _) => return Some(copy.clone()),
        (10, _) => return Some(Exp::Type),
        (11, _) => return Some(exp!("{part} -> {part}")),
        (12, _) => return Some(name(head)),
        (13, _) => return Some(App(head.clone(), vec![part.clone()])),
        (16, Pi(_, a, b)) => std::mem::swap(a, b),
        _ => return None,
    }
    Some(new)
}
