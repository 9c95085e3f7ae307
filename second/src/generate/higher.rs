//! Higher-order and dependent types, with rules drawn at random.

use super::libraries::{constants, Claim, Library, NUMBERS};
use super::random::Chance;
use super::tree::{exp, name, put, read, Exp};

const HIGHER: &str = "tt : o; ev : nat -> o; add : nat -> nat -> nat; it : (nat -> nat) -> nat;
    q : ((nat -> o) -> o) -> o; d : nat -> type; mk : {n:nat} d n; p : nat -> type; t : o -> type;
    anyp : {n:nat} p n; anyt : {n:o} t n; dd : {n:nat} d n -> type;
    anydd : {n:nat} {y:d n} dd n y; r : ((nat -> nat) -> nat) -> type;
    anyr : {f:(nat -> nat) -> nat} r ([g] f [x] g x)";

/// Rules whose instances make redexes of redexes.
const DEEP: &str = "under : {b:nat -> nat} ({x:nat} p (b x)) -> {n:nat} p (b n);
    deep : {b:((nat -> nat) -> nat) -> nat} ({f:(nat -> nat) -> nat} p (b [g] f [x] g x))
        -> {f:(nat -> nat) -> nat} p (b [g] f [x] g (g x));
    third : {k:((nat -> nat) -> nat) -> nat} {f:(nat -> nat) -> nat}
        p (k [g] f [x] g (k [h] h (g x)));
    fourth : {m:(((nat -> nat) -> nat) -> nat) -> nat} {n:nat} p (m [k] k [x] m [f] f [y] k [u] x);
    twice : {c:(nat -> nat) -> nat -> nat} {u:nat -> nat}
        r ([g] c ([x] c ([y] g (u y)) x) (c ([y] u y) (g z)));
    quant : {e:((nat -> o) -> o) -> o} {b:(nat -> o) -> o}
        t (e [a] b [x] e [c] a (it [y] x)) -> t (b [x] e [a] a x);
    depend : {f:{x:nat} d x -> nat} {k:({x:nat} d x -> nat) -> nat}
        ({x:nat} {y:d x} p (f (f x y) (mk (f x y))))
        -> d (k [x] [y] f (k [u] [v] f x y) (mk (k [u] [v] f x y)))";

const TYPES: &str = "nat|o|nat -> nat|nat -> nat -> nat|(nat -> nat) -> nat|(nat -> o) -> o|\
    (nat -> nat) -> nat -> nat|((nat -> nat) -> nat) -> nat|((nat -> o) -> o) -> o|\
    (((nat -> nat) -> nat) -> nat) -> nat|{x:nat} d x -> nat|({x:nat} d x -> nat) -> nat";

type Open = Vec<(String, Exp)>;

fn result(a: &Exp) -> &Exp {
    match a {
        Exp::Pi(_, _, b) => result(b),
        other => other,
    }
}

/// A random object of the type `a`, in eta-long form. An indexed base type is met
/// by a binder of just this type or by the constant that has every instance.
fn object(chance: &mut Chance, a: &Exp, open: &mut Open, deep: usize) -> Option<Exp> {
    if let Exp::Pi(x, a, b) = a {
        let new = chance.fresh();
        let b = if x.is_empty() { (**b).clone() } else { put(chance, b, x, &name(&new))? };
        open.push((new.clone(), (**a).clone()));
        let body = object(chance, &b, open, deep);
        open.pop();
        return Some(exp!("[{new}] {}", body?));
    }
    let Exp::App(family, args) = a else {
        return None;
    };
    if !args.is_empty() {
        let exact: Vec<_> = open.iter().filter(|(_, b)| b == a).collect();
        if !exact.is_empty() && chance.one_in(2) {
            return Some(name(&chance.pick(&exact).0));
        }
        let all = if family == "d" { "mk".to_string() } else { format!("any{family}") };
        return Some(Exp::App(all, args.clone()));
    }
    // A binder in most cases, else a constant.
    let fits = |(_, b): &&(String, Exp)| result(b) == a && (deep > 0 || !matches!(b, Exp::Pi(..)));
    let mut heads: Open = open.iter().filter(fits).cloned().collect();
    if heads.is_empty() || chance.one_in(4) {
        let own = constants(&[NUMBERS, "o : type", HIGHER]);
        heads = own.iter().filter(fits).cloned().collect();
    }
    let (head, mut whole) = chance.pick(&heads).clone();
    let mut args = Vec::new();
    while let Exp::Pi(x, a, b) = whole {
        let arg = object(chance, &a, open, deep - 1)?;
        whole = if x.is_empty() { *b } else { put(chance, &b, &x, &arg)? };
        args.push(arg);
    }
    Some(Exp::App(head, args))
}

/// A random judgement over the open binders.
fn judgement(chance: &mut Chance, open: &mut Open) -> Option<Exp> {
    let nat = object(chance, &name("nat"), open, 3)?;
    Some(match chance.below(6) {
        0 => exp!("d {nat}"),
        1 => exp!("dd {nat} {}", object(chance, &exp!("d {nat}"), open, 2)?),
        2 => exp!("r {}", object(chance, &read("(nat -> nat) -> nat"), open, 3)?),
        3 => exp!("t {}", object(chance, &name("o"), open, 3)?),
        _ => exp!("p {nat}"),
    })
}

/// A rule with random parameters and, at times, premises below a binder.
fn rule(chance: &mut Chance) -> Option<Exp> {
    let mut open = Vec::new();
    for _ in 0..1 + chance.below(3) {
        open.push((chance.fresh(), read(chance.word(TYPES))));
    }
    let mut e = judgement(chance, &mut open)?;
    if chance.one_in(2) {
        open.push((chance.fresh(), read(chance.word(TYPES))));
        let premise = judgement(chance, &mut open)?;
        let (x, a) = open.pop()?;
        e = exp!("({{{x}:{a}}} {premise}) -> {e}");
    }
    let around = open.iter().rev();
    Some(around.fold(e, |e, (x, a)| exp!("{{{x}:{a}}} {e}")))
}

pub fn higher(chance: &mut Chance) -> Library {
    let mut all = constants(&[NUMBERS, "o : type", HIGHER]);
    let mut rules = constants(&[DEEP]);
    while rules.len() < 12 {
        if let Some(e) = rule(chance) {
            if e.to_string().len() < 300 {
                rules.push((format!("rule{}", rules.len()), e));
            }
        }
    }
    all.extend(rules.clone());
    let claim = Box::new(move |chance: &mut Chance| instance(chance, &rules));
    Library { constants: all, claim }
}

/// An instance of a rule, below binders of its own.
fn instance(chance: &mut Chance, rules: &[(String, Exp)]) -> Option<Claim> {
    let mut open = Vec::new();
    for _ in 0..chance.below(4) {
        open.push((chance.fresh(), read(chance.word(TYPES))));
    }
    let (rule, mut whole) = chance.pick(rules).clone();
    let mut args = Vec::new();
    let deep = 1 + chance.below(4);
    while let Exp::Pi(x, a, b) = whole {
        let arg = object(chance, &a, &mut open, deep)?;
        whole = if x.is_empty() { *b } else { put(chance, &b, &x, &arg)? };
        args.push(arg);
    }
    let proof = Exp::App(rule, args);
    let around = open.iter().rev();
    Some(around.fold((whole, proof), |(e, d), (x, a)| (exp!("{{{x}:{a}}} {e}"), exp!("[{x}] {d}"))))
}
