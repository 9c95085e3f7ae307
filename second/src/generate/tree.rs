//! Expressions with named binders: read from plain text, put into one another,
//! and printed in many ways.

use super::random::Chance;
use std::fmt;

/// A product whose name is empty is an arrow.
#[derive(Clone, PartialEq)]
pub enum Exp {
    Type,
    Pi(String, Box<Exp>, Box<Exp>),
    Lam(String, Box<Exp>),
    App(String, Vec<Exp>),
}

use Exp::{App, Lam, Pi, Type};

/// Reads an expression from a format string.
macro_rules! exp {
    ($($part:tt)*) => { $crate::generate::tree::read(&format!($($part)*)) };
}
pub(super) use exp;

/// A name alone.
pub fn name(name: &str) -> Exp {
    App(name.to_string(), Vec::new())
}

/// Prints as an atom, so that it can stand anywhere in a format string.
impl fmt::Display for Exp {
    fn fmt(&self, out: &mut fmt::Formatter) -> fmt::Result {
        match self {
            Type => write!(out, "type"),
            Pi(x, a, b) if x.is_empty() => write!(out, "({a} -> {b})"),
            Pi(x, a, b) => write!(out, "({{{x}:{a}}} {b})"),
            Lam(x, body) => write!(out, "([{x}] {body})"),
            App(head, args) if args.is_empty() => write!(out, "{head}"),
            App(head, args) => {
                write!(out, "({head}")?;
                args.iter().try_for_each(|arg| write!(out, " {arg}"))?;
                write!(out, ")")
            }
        }
    }
}

/// Reads a text of this module's own making.
pub fn read(text: &str) -> Exp {
    let mut tokens = Vec::new();
    let mut rest = text.trim_start();
    while !rest.is_empty() {
        let word = |c: char| !c.is_ascii_alphanumeric() && !"_'/".contains(c);
        let end = match rest.find(word).unwrap_or(rest.len()) {
            0 if rest.starts_with("->") => 2,
            0 => 1,
            end => end,
        };
        tokens.push(&rest[..end]);
        rest = rest[end..].trim_start();
    }
    tokens.reverse();
    whole(&mut tokens)
}

fn whole(tokens: &mut Vec<&str>) -> Exp {
    let left = match tokens.pop().expect("an expression") {
        "{" => {
            let x = tokens.pop().expect("a name").to_string();
            tokens.pop();
            let a = whole(tokens);
            tokens.pop();
            return Pi(x, a.into(), whole(tokens).into());
        }
        "[" => return abstraction(tokens),
        "(" => bracketed(tokens),
        "type" => Type,
        head => {
            let mut args = Vec::new();
            loop {
                match tokens.last() {
                    None | Some(&")" | &"}" | &"->") => break,
                    _ => args.push(match tokens.pop().expect("an argument") {
                        "[" => abstraction(tokens),
                        "(" => bracketed(tokens),
                        "type" => Type,
                        head => name(head),
                    }),
                }
            }
            App(head.to_string(), args)
        }
    };
    if tokens.last() == Some(&"->") {
        tokens.pop();
        return Pi(String::new(), left.into(), whole(tokens).into());
    }
    left
}

fn abstraction(tokens: &mut Vec<&str>) -> Exp {
    let x = tokens.pop().expect("a name").to_string();
    tokens.pop();
    Lam(x, whole(tokens).into())
}

fn bracketed(tokens: &mut Vec<&str>) -> Exp {
    let inner = whole(tokens);
    tokens.pop();
    inner
}

pub fn size(e: &Exp) -> usize {
    1 + match e {
        Type => 0,
        Pi(_, a, b) => size(a) + size(b),
        Lam(_, body) => size(body),
        App(_, args) => args.iter().map(size).sum(),
    }
}

/// Puts `m` for the name `x` and makes the result canonical. There is none where it
/// would grow too large.
pub fn put(chance: &mut Chance, e: &Exp, x: &str, m: &Exp) -> Option<Exp> {
    let mut left = 2_000;
    put_all(chance, e, &mut vec![(x.to_string(), m.clone())], &mut left)
}

/// Every binder passed gets a fresh name, so nothing is captured.
fn put_all(
    chance: &mut Chance,
    e: &Exp,
    puts: &mut Vec<(String, Exp)>,
    left: &mut usize,
) -> Option<Exp> {
    *left = left.checked_sub(1)?;
    let mut under = |x: &String, body: &Exp, puts: &mut Vec<(String, Exp)>, left: &mut usize| {
        if x.is_empty() {
            return Some((String::new(), put_all(chance, body, puts, left)?.into()));
        }
        let new = chance.fresh();
        puts.push((x.clone(), name(&new)));
        let body = put_all(chance, body, puts, left);
        puts.pop();
        Some((new, body?.into()))
    };
    Some(match e {
        Type => Type,
        Pi(x, a, b) => {
            let (_, a) = under(&String::new(), a, puts, left)?;
            let (x, b) = under(x, b, puts, left)?;
            Pi(x, a, b)
        }
        Lam(x, body) => {
            let (x, body) = under(x, body, puts, left)?;
            Lam(x, body)
        }
        App(head, args) => {
            let mut done = Vec::new();
            for arg in args {
                done.push(put_all(chance, arg, puts, left)?);
            }
            match puts.iter().rev().find(|(x, _)| x == head) {
                None => App(head.clone(), done),
                Some((_, m)) => {
                    *left = left.checked_sub(size(m))?;
                    apply(chance, m.clone(), done, left)?
                }
            }
        }
    })
}

fn apply(chance: &mut Chance, m: Exp, mut args: Vec<Exp>, left: &mut usize) -> Option<Exp> {
    match m {
        App(head, mut own) => {
            own.append(&mut args);
            Some(App(head, own))
        }
        Lam(x, body) if !args.is_empty() => {
            let first = args.remove(0);
            let body = put_all(chance, &body, &mut vec![(x, first)], left)?;
            apply(chance, body, args, left)
        }
        other => args.is_empty().then_some(other),
    }
}

fn free(e: &Exp, bound: &mut Vec<String>, out: &mut Vec<String>) {
    let mut under = |x: &String, body: &Exp| {
        bound.push(x.clone());
        free(body, bound, out);
        bound.pop();
    };
    match e {
        Type => {}
        Pi(x, a, b) => {
            under(&String::new(), a);
            under(x, b);
        }
        Lam(x, body) => under(x, body),
        App(head, args) => {
            if !bound.contains(head) && !out.contains(head) {
                out.push(head.clone());
            }
            args.iter().for_each(|arg| free(arg, bound, out));
        }
    }
}

#[derive(Clone, Copy, PartialEq)]
pub enum Style {
    Plain,
    Tight,
    Loose,
}

#[derive(Clone, Copy, PartialEq)]
enum Stand {
    Whole,
    Left,
    Argument,
}

/// Prints expressions with the names of `names` for constants, and names drawn from
/// `pool` for binders, shadowing wherever that changes no meaning.
pub struct Printer<'a> {
    pub chance: &'a mut Chance,
    pub names: &'a [(String, String)],
    pub pool: &'a [String],
    pub style: Style,
}

impl Printer<'_> {
    pub fn print(&mut self, e: &Exp) -> String {
        let mut tokens = Vec::new();
        self.tokens(e, Stand::Whole, &mut Vec::new(), &mut tokens);
        self.join(&tokens)
    }

    fn outward(&self, inner: &String, open: &[(String, String)]) -> String {
        let mut known = open.iter().rev().chain(self.names);
        let found = known.find(|(from, _)| from == inner);
        found.map_or(inner, |(_, to)| to).clone()
    }

    /// A name for the binder `x` of `body` that captures nothing, and whether `x` is used.
    fn binder(&mut self, x: &String, body: &Exp, open: &[(String, String)]) -> (String, bool) {
        let mut names = Vec::new();
        free(body, &mut Vec::new(), &mut names);
        let used = names.contains(x);
        names.retain(|n| n != x);
        let others: Vec<String> = names.iter().map(|n| self.outward(n, open)).collect();
        for _ in 0..8 {
            let new = self.chance.pick(self.pool);
            if !others.contains(new) {
                return (new.clone(), used);
            }
        }
        (self.chance.fresh(), used)
    }

    fn tokens(
        &mut self,
        e: &Exp,
        stand: Stand,
        open: &mut Vec<(String, String)>,
        out: &mut Vec<String>,
    ) {
        let needed = match e {
            Type => false,
            App(_, args) => stand == Stand::Argument && !args.is_empty(),
            _ => stand != Stand::Whole,
        };
        if needed || (self.style == Style::Loose && self.chance.one_in(20)) {
            out.push("(".into());
            self.form(e, Stand::Whole, open, out);
            out.push(")".into());
        } else {
            self.form(e, stand, open, out);
        }
    }

    fn form(
        &mut self,
        e: &Exp,
        stand: Stand,
        open: &mut Vec<(String, String)>,
        out: &mut Vec<String>,
    ) {
        match e {
            Type => out.push("type".into()),
            Pi(x, a, b) => {
                let (new, used) = self.binder(x, b, open);
                if used || (self.style != Style::Tight && self.chance.one_in(8)) {
                    out.extend(["{".into(), new.clone(), ":".into()]);
                    self.tokens(a, Stand::Whole, open, out);
                    out.push("}".into());
                } else {
                    self.tokens(a, Stand::Left, open, out);
                    out.push("->".into());
                }
                open.push((x.clone(), new));
                self.tokens(b, Stand::Whole, open, out);
                open.pop();
            }
            Lam(x, body) => {
                let (new, _) = self.binder(x, body, open);
                out.extend(["[".into(), new.clone(), "]".into()]);
                open.push((x.clone(), new));
                self.tokens(body, Stand::Whole, open, out);
                open.pop();
            }
            App(head, args) => {
                out.push(self.outward(head, open));
                for (i, arg) in args.iter().enumerate() {
                    let last = i + 1 == args.len() && stand == Stand::Whole;
                    let bare = last && matches!(arg, Lam(..));
                    if bare && (self.style == Style::Tight || !self.chance.one_in(4)) {
                        self.form(arg, Stand::Whole, open, out);
                    } else {
                        self.tokens(arg, Stand::Argument, open, out);
                    }
                }
            }
        }
    }

    fn join(&mut self, tokens: &[String]) -> String {
        let mut out = String::new();
        let word = |token: &String| !"(){}[]:->".contains(token.as_str());
        for (i, token) in tokens.iter().enumerate() {
            let before = if i == 0 { token } else { &tokens[i - 1] };
            let needed = i > 0 && word(before) && word(token);
            let opens = ["(", "[", "{", ":"].contains(&before.as_str());
            let closes = [")", "]", "}", ":"].contains(&token.as_str());
            match self.style {
                Style::Tight if needed => out.push(' '),
                Style::Plain if i > 0 && !opens && !closes => out.push(' '),
                Style::Loose if needed => out.push_str(self.chance.word(" |  |\t|\r")),
                Style::Loose => out.push_str(self.chance.word("|| | |\t ")),
                _ => {}
            }
            out.push_str(token);
        }
        out
    }
}
