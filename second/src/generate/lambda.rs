//! A typed lambda calculus, and an untyped one with typings.

use super::libraries::Claim;
use super::random::Chance;
use super::tree::{exp, name, put, Exp};

pub const LAMBDA: &str = "tp : type; i : tp; arr : tp -> tp -> tp; tm : tp -> type;
    lam : {a:tp} {b:tp} (tm a -> tm b) -> tm (arr a b);
    app : {a:tp} {b:tp} tm (arr a b) -> tm a -> tm b; c : tm i;
    step : {a:tp} tm a -> tm a -> type;
    beta : {a:tp} {b:tp} {m:tm a -> tm b} {n:tm a} step b (app a b (lam a b [x] m x) n) (m n);
    left : {a:tp} {b:tp} {m:tm (arr a b)} {k:tm (arr a b)} {n:tm a}
        step (arr a b) m k -> step b (app a b m n) (app a b k n);
    right : {a:tp} {b:tp} {m:tm (arr a b)} {n:tm a} {k:tm a}
        step a n k -> step b (app a b m n) (app a b m k);
    xi : {a:tp} {b:tp} {m:tm a -> tm b} {n:tm a -> tm b} ({x:tm a} step b (m x) (n x))
        -> step (arr a b) (lam a b [x] m x) (lam a b [x] n x);
    e : type; k : e; fn : (e -> e) -> e; ap : e -> e -> e; of : e -> tp -> type; ofk : of k i;
    offn : {a:tp} {b:tp} {m:e -> e} ({x:e} of x a -> of (m x) b) -> of (fn [x] m x) (arr a b);
    ofap : {a:tp} {b:tp} {m:e} {n:e} of m (arr a b) -> of n a -> of (ap m n) b";

fn simple(chance: &mut Chance, deep: usize) -> Exp {
    if deep == 0 || chance.one_in(2) {
        return name("i");
    }
    let left = simple(chance, deep - 1);
    exp!("arr {left} {}", simple(chance, deep - 1))
}

fn arrow(a: &Exp) -> Option<(Exp, Exp)> {
    match a {
        Exp::App(_, args) if args.len() == 2 => Some((args[0].clone(), args[1].clone())),
        _ => None,
    }
}

/// A term of type `a` in both calculi, and the typing of the second.
fn typed(
    chance: &mut Chance,
    a: &Exp,
    open: &mut Vec<(String, String, Exp)>,
    deep: usize,
) -> (Exp, Exp, Exp) {
    let fitting: Vec<_> = open.iter().filter(|(_, _, b)| b == a).collect();
    if !fitting.is_empty() && chance.one_in(2) {
        let (x, h, _) = chance.pick(&fitting);
        return (name(x), name(x), name(h));
    }
    if deep > 0 && chance.one_in(2) {
        let b = simple(chance, 1);
        let (m, u, d) = typed(chance, &exp!("arr {b} {a}"), open, deep - 1);
        let (n, v, f) = typed(chance, &b, open, deep - 1);
        let typing = exp!("ofap {b} {a} {u} {v} {d} {f}");
        return (exp!("app {b} {a} {m} {n}"), exp!("ap {u} {v}"), typing);
    }
    let Some((b, c)) = arrow(a) else {
        return (name("c"), name("k"), name("ofk"));
    };
    let (x, h) = (chance.fresh(), chance.fresh());
    open.push((x.clone(), h.clone(), b.clone()));
    let (m, u, d) = typed(chance, &c, open, deep.saturating_sub(1));
    open.pop();
    let typing = exp!("offn {b} {c} ([{x}] {u}) [{x}] [{h}] {d}");
    (exp!("lam {b} {c} [{x}] {m}"), exp!("fn [{x}] {u}"), typing)
}

/// A step at type `a`: from, to and its derivation.
fn step(
    chance: &mut Chance,
    a: &Exp,
    open: &mut Vec<(String, String, Exp)>,
    deep: usize,
) -> Option<(Exp, Exp, Exp)> {
    let (b, x) = (simple(chance, 1), chance.fresh());
    if deep > 0 && chance.one_in(2) {
        if let Some((c, d)) = arrow(a) {
            open.push((x.clone(), chance.fresh(), c.clone()));
            let inner = step(chance, &d, open, deep - 1);
            open.pop();
            let (m, n, by) = inner?;
            let by = exp!("xi {c} {d} ([{x}] {m}) ([{x}] {n}) [{x}] {by}");
            return Some((exp!("lam {c} {d} [{x}] {m}"), exp!("lam {c} {d} [{x}] {n}"), by));
        }
    }
    if deep > 0 && chance.one_in(2) {
        let to = exp!("arr {b} {a}");
        if chance.one_in(2) {
            let (m, k, by) = step(chance, &to, open, deep - 1)?;
            let (n, _, _) = typed(chance, &b, open, 2);
            let by = exp!("left {b} {a} {m} {k} {n} {by}");
            return Some((exp!("app {b} {a} {m} {n}"), exp!("app {b} {a} {k} {n}"), by));
        }
        let (m, _, _) = typed(chance, &to, open, 2);
        let (n, k, by) = step(chance, &b, open, deep - 1)?;
        let by = exp!("right {b} {a} {m} {n} {k} {by}");
        return Some((exp!("app {b} {a} {m} {n}"), exp!("app {b} {a} {m} {k}"), by));
    }
    let (n, _, _) = typed(chance, &b, open, 2);
    open.push((x.clone(), chance.fresh(), b.clone()));
    let (m, _, _) = typed(chance, a, open, 2);
    open.pop();
    let to = put(chance, &m, &x, &n)?;
    let by = exp!("beta {b} {a} ([{x}] {m}) {n}");
    Some((exp!("app {b} {a} (lam {b} {a} [{x}] {m}) {n}"), to, by))
}

pub fn lambda(chance: &mut Chance) -> Option<Claim> {
    let (a, b, x) = (simple(chance, 2), simple(chance, 1), chance.fresh());
    let deep = 1 + chance.below(4);
    let mut open = Vec::new();
    match chance.below(5) {
        0 => Some((exp!("tm {a}"), typed(chance, &a, &mut open, deep).0)),
        1 => {
            let (_, m, typing) = typed(chance, &a, &mut open, deep);
            Some((exp!("of {m} {a}"), typing))
        }
        2 => {
            let (m, n, by) = step(chance, &a, &mut open, deep)?;
            Some((exp!("step {a} {m} {n}"), by))
        }
        _ => {
            open.push((x.clone(), chance.fresh(), b.clone()));
            let (m, n, by) = step(chance, &a, &mut open, deep - 1)?;
            Some((exp!("{{{x}:tm {b}}} step {a} {m} {n}"), exp!("[{x}] {by}")))
        }
    }
}
