//! Over numbers and their sums: programs with stack bounds, and vectors with lengths.

use super::libraries::Claim;
use super::random::Chance;
use super::tree::{exp, name, put, Exp};

pub const PLUS: &str = "plus : nat -> nat -> nat -> type; pz : {n:nat} plus z n n;
    ps : {m:nat} {n:nat} {k:nat} plus m n k -> plus (s m) n (s k)";

pub const STACK: &str = "le : nat -> nat -> type; ler : {n:nat} le n n;
    les : {m:nat} {n:nat} le m n -> le m (s n);
    ins : type; push : nat -> ins; pop : ins; sum : ins; call : nat -> ins;
    prog : type; halt : prog; seq : ins -> prog -> prog; let : (nat -> prog) -> prog;
    bound : prog -> nat -> nat -> type;
    bhalt : {n:nat} {k:nat} le n k -> bound halt n k;
    bpush : {v:nat} {p:prog} {n:nat} {k:nat}
        le (s n) k -> bound p (s n) k -> bound (seq (push v) p) n k;
    bpop : {p:prog} {n:nat} {k:nat} bound p n k -> bound (seq pop p) (s n) k;
    bsum : {p:prog} {n:nat} {k:nat} bound p (s n) k -> bound (seq sum p) (s (s n)) k;
    bcall : {f:nat} {p:prog} {n:nat} {m:nat} {k:nat}
        plus f n m -> le m k -> bound p n k -> bound (seq (call f) p) n k;
    blet : {q:nat -> prog} {n:nat} {k:nat}
        ({x:nat} bound (q x) (s n) k) -> bound (let [x] q x) n k";

pub const VECTORS: &str = "el : type; a : el; b : el; pair : el -> el -> el; vec : nat -> type;
    nil : vec z; cons : {n:nat} el -> vec n -> vec (s n);
    cat : {m:nat} {n:nat} {k:nat} vec m -> vec n -> vec k -> type;
    catz : {n:nat} {v:vec n} cat z n n nil v v;
    cats : {m:nat} {n:nat} {k:nat} {e:el} {u:vec m} {v:vec n} {w:vec k}
        cat m n k u v w -> cat (s m) n (s k) (cons m e u) v (cons k e w);
    total : {m:nat} {n:nat} {k:nat} {u:vec m} {v:vec n} {w:vec k}
        plus m n k -> cat m n k u v w -> type;
    both : {m:nat} {n:nat} {k:nat} {u:vec m} {v:vec n} {w:vec k}
        {p:plus m n k} {c:cat m n k u v w} total m n k u v w p c;
    map : {n:nat} (el -> el) -> vec n -> vec n -> type;
    mapz : {f:el -> el} map z ([x] f x) nil nil;
    maps : {n:nat} {f:el -> el} {e:el} {u:vec n} {w:vec n}
        map n ([x] f x) u w -> map (s n) ([x] f x) (cons n e u) (cons n (f e) w)";

fn number(n: usize, base: &Exp) -> Exp {
    (0..n).fold(base.clone(), |t, _| exp!("s {t}"))
}

/// The proof that m and `n` come to their sum.
fn plus(m: usize, n: &Exp) -> Exp {
    (0..m)
        .fold(exp!("pz {n}"), |d, i| exp!("ps {} {n} {} {d}", number(i, &name("z")), number(i, n)))
}

/// The proof that low is at most high, both above the base.
fn at_most(low: usize, high: usize, base: &Exp) -> Exp {
    let m = number(low, base);
    (low..high).fold(exp!("ler {m}"), |d, i| exp!("les {m} {} {d}", number(i, base)))
}

pub fn stack(chance: &mut Chance) -> Option<Claim> {
    let (x, start) = (chance.fresh(), chance.below(3));
    let open = chance.one_in(2);
    let base = if open { name(&x) } else { name("z") };
    // Each step with the height before it and its value.
    let (mut steps, mut height, mut highest) = (Vec::new(), start, start);
    let mut values = vec![name("z"), exp!("s z"), base.clone()];
    for _ in 0..1 + chance.below(6) {
        let which = chance.below(5);
        let value = chance.pick(&values).clone();
        let frame = chance.below(4);
        let which = if which <= 1 && height <= which { 2 } else { which };
        let local = chance.fresh();
        steps.push((which, height, value, frame, local.clone()));
        match which {
            0 | 1 => height -= 1,
            3 => highest = highest.max(height + frame),
            _ => height += 1,
        }
        if which == 4 {
            values.push(name(&local));
        }
        highest = highest.max(height);
    }
    highest += chance.below(2);
    let k = number(highest, &base);
    let below = |h: usize| at_most(h, highest, &base);
    let mut p = name("halt");
    let mut d = exp!("bhalt {} {k} {}", number(height, &base), below(height));
    for (which, h, v, frame, y) in steps.into_iter().rev() {
        let n = number(h, &base);
        (p, d) = match which {
            0 => (exp!("seq pop {p}"), exp!("bpop {p} {} {k} {d}", number(h - 1, &base))),
            1 => (exp!("seq sum {p}"), exp!("bsum {p} {} {k} {d}", number(h - 2, &base))),
            2 => (exp!("seq (push {v}) {p}"), exp!("bpush {v} {p} {n} {k} {} {d}", below(h + 1))),
            3 => {
                let (f, m) = (number(frame, &name("z")), number(h + frame, &base));
                let by = (plus(frame, &n), below(h + frame));
                let d = exp!("bcall {f} {p} {n} {m} {k} {} {} {d}", by.0, by.1);
                (exp!("seq (call {f}) {p}"), d)
            }
            _ => (exp!("let [{y}] {p}"), exp!("blet ([{y}] {p}) {n} {k} [{y}] {d}")),
        };
    }
    let statement = exp!("bound {p} {} {k}", number(start, &base));
    Some(if open { (exp!("{{{x}:nat}} {statement}"), exp!("[{x}] {d}")) } else { (statement, d) })
}

fn element(chance: &mut Chance, open: &Exp, deep: usize) -> Exp {
    if deep > 0 && chance.one_in(2) {
        let left = element(chance, open, deep - 1);
        return exp!("pair {left} {}", element(chance, open, deep - 1));
    }
    chance.pick(&[name("a"), name("b"), open.clone()]).clone()
}

/// The vector that has `front` before `tail`, which has length n.
fn vector(front: &[Exp], n: &Exp, tail: &Exp) -> Exp {
    let long = front.iter().rev().enumerate();
    long.fold(tail.clone(), |v, (i, e)| exp!("cons {} {e} {v}", number(i, n)))
}

pub fn vectors(chance: &mut Chance) -> Option<Claim> {
    let (x, z, nil) = (name(&chance.fresh()), name("z"), name("nil"));
    let mut front = Vec::new();
    for _ in 0..chance.below(4) {
        front.push(element(chance, &x, 1));
    }
    let m = front.len();
    let u = vector(&front, &z, &nil);
    if chance.one_in(2) {
        // The function [y] f over the vector.
        let y = chance.fresh();
        let f = element(chance, &name(&y), 2);
        let mut images = Vec::new();
        for e in &front {
            images.push(put(chance, &f, &y, e)?);
        }
        let mut d = exp!("mapz [{y}] {f}");
        for i in 0..m {
            let (n, from) = (number(i, &z), m - i);
            let (u, w) = (vector(&front[from..], &z, &nil), vector(&images[from..], &z, &nil));
            d = exp!("maps {n} ([{y}] {f}) {} {u} {w} {d}", front[from - 1]);
        }
        let (n, w) = (number(m, &z), vector(&images, &z, &nil));
        let statement = exp!("{{{x}:el}} map {n} ([{y}] {f}) {u} {w}");
        return Some((statement, exp!("[{x}] {d}")));
    }
    // The vector before another one that has an open length.
    let (n, v) = (name(&chance.fresh()), name(&chance.fresh()));
    let mut d = exp!("catz {n} {v}");
    for i in 0..m {
        let (from, j, k) = (m - i, number(i, &z), number(i, &n));
        let (u, w) = (vector(&front[from..], &z, &nil), vector(&front[from..], &n, &v));
        d = exp!("cats {j} {n} {k} {} {u} {v} {w} {d}", front[from - 1]);
    }
    let (k, w) = (number(m, &n), vector(&front, &n, &v));
    let args = exp!("cat {} {n} {k} {u} {v} {w}", number(m, &z));
    let opened = format!("{{{x}:el}} {{{n}:nat}} {{{v}:vec {n}}}");
    let lams = format!("[{x}] [{n}] [{v}]");
    if chance.one_in(2) {
        return Some((exp!("{opened} {args}"), exp!("{lams} {d}")));
    }
    let p = plus(m, &n);
    let args = format!("{} {n} {k} {u} {v} {w} {p} {d}", number(m, &z));
    Some((exp!("{opened} total {args}"), exp!("{lams} both {args}")))
}
