//! First-order logic with equality and induction.

use super::libraries::Claim;
use super::random::Chance;
use super::tree::{exp, name, put, Exp};

pub const LOGIC: &str =
    "add : nat -> nat -> nat; o : type; eq : nat -> nat -> o; imp : o -> o -> o;
    and : o -> o -> o; all : (nat -> o) -> o; ex : (nat -> o) -> o; pf : o -> type;
    inst : {p:nat -> o} {t:nat} pf (all [x] p x) -> pf (p t);
    alli : {p:nat -> o} ({x:nat} pf (p x)) -> pf (all [x] p x);
    exi : {p:nat -> o} {t:nat} pf (p t) -> pf (ex [x] p x);
    exe : {p:nat -> o} {q:o} pf (ex [x] p x) -> ({x:nat} pf (p x) -> pf q) -> pf q;
    impi : {a:o} {b:o} (pf a -> pf b) -> pf (imp a b);
    impe : {a:o} {b:o} pf (imp a b) -> pf a -> pf b;
    andi : {a:o} {b:o} pf a -> pf b -> pf (and a b);
    andl : {a:o} {b:o} pf (and a b) -> pf a;
    refl : {t:nat} pf (eq t t);
    subst : {p:nat -> o} {t:nat} {u:nat} pf (eq t u) -> pf (p t) -> pf (p u);
    ind : {p:nat -> o} pf (p z) -> ({x:nat} pf (p x) -> pf (p (s x))) -> {n:nat} pf (p n);
    addz : {n:nat} pf (eq (add z n) n);
    adds : {m:nat} {n:nat} pf (eq (add (s m) n) (s (add m n)))";

struct Scope {
    numbers: Vec<String>,
    facts: Vec<(Exp, String)>,
}

fn term(chance: &mut Chance, numbers: &[String], deep: usize) -> Exp {
    match chance.below(if deep == 0 { 2 } else { 5 }) {
        0 | 1 if !numbers.is_empty() => name(chance.pick::<String>(numbers)),
        0 | 1 => name("z"),
        2 | 3 => exp!("s {}", term(chance, numbers, deep - 1)),
        _ => {
            let left = term(chance, numbers, deep - 1);
            exp!("add {left} {}", term(chance, numbers, deep - 1))
        }
    }
}

fn formula(chance: &mut Chance, numbers: &mut Vec<String>, deep: usize) -> Exp {
    let which = if deep == 0 { 0 } else { chance.below(4) };
    if which < 2 {
        let left = term(chance, numbers, 2);
        return exp!("eq {left} {}", term(chance, numbers, 2));
    }
    if which == 2 {
        let (word, left) = (chance.word("imp|and"), formula(chance, numbers, deep - 1));
        return exp!("{word} {left} {}", formula(chance, numbers, deep - 1));
    }
    let (word, x) = (chance.word("all|ex"), chance.fresh());
    numbers.push(x.clone());
    let body = formula(chance, numbers, deep - 1);
    numbers.pop();
    exp!("{word} [{x}] {body}")
}

/// A formula and its proof.
fn proof(chance: &mut Chance, scope: &mut Scope, deep: usize) -> Option<Claim> {
    if !scope.facts.is_empty() && chance.one_in(3) {
        let (fact, h) = chance.pick(&scope.facts);
        return Some((fact.clone(), name(h)));
    }
    let t = term(chance, &scope.numbers, 2);
    if deep == 0 {
        return Some(match chance.below(2) {
            0 => (exp!("eq {t} {t}"), exp!("refl {t}")),
            _ => (exp!("eq (add z {t}) {t}"), exp!("addz {t}")),
        });
    }
    let which = chance.below(9);
    if which == 0 {
        let (a, pa) = proof(chance, scope, deep - 1)?;
        let (b, pb) = proof(chance, scope, deep - 1)?;
        return Some((exp!("and {a} {b}"), exp!("andi {a} {b} {pa} {pb}")));
    }
    if which <= 2 {
        let (a, h) = (formula(chance, &mut scope.numbers, 1), chance.fresh());
        scope.facts.push((a.clone(), h.clone()));
        let inner = proof(chance, scope, deep - 1);
        scope.facts.pop();
        let (b, pb) = inner?;
        return Some((exp!("imp {a} {b}"), exp!("impi {a} {b} [{h}] {pb}")));
    }
    if which == 3 {
        let (a, pa) = proof(chance, scope, deep - 1)?;
        let (b, pb) = proof(chance, scope, deep - 1)?;
        return Some((a.clone(), exp!("andl {a} {b} (andi {a} {b} {pa} {pb})")));
    }
    // The others take a formula p and its proof d below a number x.
    let x = chance.fresh();
    scope.numbers.push(x.clone());
    let inner = proof(chance, scope, deep - 1);
    scope.numbers.pop();
    let (p, d) = inner?;
    let (pt, dt) = (put(chance, &p, &x, &t)?, put(chance, &d, &x, &t)?);
    Some(match which {
        4 => (exp!("all [{x}] {p}"), exp!("alli ([{x}] {p}) [{x}] {d}")),
        5 => (pt, exp!("inst ([{x}] {p}) {t} (alli ([{x}] {p}) [{x}] {d})")),
        6 => (exp!("ex [{x}] {p}"), exp!("exi ([{x}] {p}) {t} {dt}")),
        7 => {
            let long = exp!("add z {t}");
            let dl = put(chance, &d, &x, &long)?;
            (pt, exp!("subst ([{x}] {p}) {long} {t} (addz {t}) {dl}"))
        }
        _ => {
            let (y, h) = (chance.fresh(), chance.fresh());
            let dz = put(chance, &d, &x, &name("z"))?;
            let ds = put(chance, &d, &x, &exp!("s {y}"))?;
            (pt, exp!("ind ([{x}] {p}) {dz} ([{y}] [{h}] {ds}) {t}"))
        }
    })
}

pub fn logic(chance: &mut Chance) -> Option<Claim> {
    let x = chance.fresh();
    let mut scope = Scope { numbers: Vec::new(), facts: Vec::new() };
    let deep = chance.below(4);
    if chance.one_in(2) {
        let (f, d) = proof(chance, &mut scope, deep)?;
        return Some((exp!("pf {f}"), d));
    }
    scope.numbers.push(x.clone());
    let (h, fact) = (chance.fresh(), formula(chance, &mut scope.numbers, 2));
    scope.facts.push((fact.clone(), h.clone()));
    let (f, d) = proof(chance, &mut scope, deep)?;
    Some((exp!("{{{x}:nat}} pf {fact} -> pf {f}"), exp!("[{x}] [{h}] {d}")))
}
