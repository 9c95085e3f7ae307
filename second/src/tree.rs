//! Expressions as trees. Every binder has an identity, and an occurrence of a variable
//! holds the identity of its binder.

use std::rc::Rc;
use std::sync::atomic::{AtomicU64, Ordering};

/// The identity of a binder.
#[derive(Clone, Copy, Debug, PartialEq, Eq)]
pub struct Binder(u64);

static NEXT: AtomicU64 = AtomicU64::new(0);

impl Binder {
    /// An identity that no other binder has.
    pub fn fresh() -> Binder {
        Binder(NEXT.fetch_add(1, Ordering::Relaxed))
    }
}

/// What heads a spine: the number of a constant, or a variable.
#[derive(Clone, Copy, Debug, PartialEq, Eq)]
pub enum Head {
    Constant(usize),
    Variable(Binder),
}

pub type Exp = Rc<Node>;

/// An expression. `at` is the place of its token in the text it was read from, and 0
/// if reading did not make it.
#[derive(Debug)]
pub struct Node {
    pub at: usize,
    pub form: Form,
}

/// The four forms of expressions. The list of a head holds the arguments of its spine.
#[derive(Debug)]
pub enum Form {
    Type,
    Product(Binder, Exp, Exp),
    Abstraction(Binder, Exp),
    Headed(Head, Vec<Exp>),
}

/// An expression with its place.
pub fn node(at: usize, form: Form) -> Exp {
    Rc::new(Node { at, form })
}

/// The count of nodes. A spine has a node for each argument and one for its end.
pub fn size(e: &Exp) -> usize {
    match &e.form {
        Form::Type => 1,
        Form::Product(_, a, b) => 1 + size(a) + size(b),
        Form::Abstraction(_, m) => 1 + size(m),
        Form::Headed(_, spine) => 2 + spine.iter().map(|m| 1 + size(m)).sum::<usize>(),
    }
}

pub fn is_product(e: &Exp) -> bool {
    matches!(e.form, Form::Product(..))
}

/// Is it `type` after any number of products?
pub fn is_kind(e: &Exp) -> bool {
    let mut e = e;
    while let Form::Product(_, _, b) = &e.form {
        e = b;
    }
    matches!(e.form, Form::Type)
}

/// Gives each constant that heads a node of the expression to `f`.
pub fn each_constant(e: &Exp, f: &mut impl FnMut(usize)) {
    match &e.form {
        Form::Type => {}
        Form::Product(_, a, b) => {
            each_constant(a, f);
            each_constant(b, f);
        }
        Form::Abstraction(_, m) => each_constant(m, f),
        Form::Headed(head, spine) => {
            if let Head::Constant(c) = head {
                f(*c);
            }
            for m in spine {
                each_constant(m, f);
            }
        }
    }
}

/// A copy whose binders have fresh identities. Its places are 0.
pub fn copy(e: &Exp) -> Exp {
    copy_with(e, &mut Vec::new())
}

/// A copy as above, with the variable `old` replaced by the variable `new`.
pub fn rename(e: &Exp, old: Binder, new: Binder) -> Exp {
    copy_with(e, &mut vec![(old, new)])
}

/// A copy in which each variable on the left of a pair becomes the one on its right;
/// the newest pair decides.
fn copy_with(e: &Exp, pairs: &mut Vec<(Binder, Binder)>) -> Exp {
    let form = match &e.form {
        Form::Type => Form::Type,
        Form::Product(x, a, b) => {
            let a = copy_with(a, pairs);
            let (x, b) = copy_below(*x, b, pairs);
            Form::Product(x, a, b)
        }
        Form::Abstraction(x, m) => {
            let (x, m) = copy_below(*x, m, pairs);
            Form::Abstraction(x, m)
        }
        Form::Headed(head, spine) => {
            let head = match head {
                Head::Constant(c) => Head::Constant(*c),
                Head::Variable(x) => {
                    let pair = pairs.iter().rev().find(|(old, _)| old == x);
                    Head::Variable(pair.map_or(*x, |(_, new)| *new))
                }
            };
            Form::Headed(head, spine.iter().map(|m| copy_with(m, pairs)).collect())
        }
    };
    node(0, form)
}

/// A copy of a binder and of what is below it.
fn copy_below(x: Binder, e: &Exp, pairs: &mut Vec<(Binder, Binder)>) -> (Binder, Exp) {
    let new = Binder::fresh();
    pairs.push((x, new));
    let e = copy_with(e, pairs);
    pairs.pop();
    (new, e)
}

/// Are the two equal? Places do not count, nor do the identities of their own binders.
pub fn equal(a: &Exp, b: &Exp) -> bool {
    equal_with(a, b, &mut Vec::new())
}

/// Equality below the binders that are paired.
fn equal_with(a: &Exp, b: &Exp, pairs: &mut Vec<(Binder, Binder)>) -> bool {
    match (&a.form, &b.form) {
        (Form::Type, Form::Type) => true,
        (Form::Product(x, a, b), Form::Product(y, c, d)) => {
            equal_with(a, c, pairs) && equal_below((*x, *y), b, d, pairs)
        }
        (Form::Abstraction(x, m), Form::Abstraction(y, n)) => equal_below((*x, *y), m, n, pairs),
        (Form::Headed(g, s), Form::Headed(h, t)) => {
            equal_heads(*g, *h, pairs)
                && s.len() == t.len()
                && s.iter().zip(t).all(|(m, n)| equal_with(m, n, pairs))
        }
        _ => false,
    }
}

fn equal_below(
    pair: (Binder, Binder),
    a: &Exp,
    b: &Exp,
    pairs: &mut Vec<(Binder, Binder)>,
) -> bool {
    pairs.push(pair);
    let equal = equal_with(a, b, pairs);
    pairs.pop();
    equal
}

fn equal_heads(g: Head, h: Head, pairs: &[(Binder, Binder)]) -> bool {
    match (g, h) {
        (Head::Constant(c), Head::Constant(d)) => c == d,
        (Head::Variable(x), Head::Variable(y)) => {
            let pair = pairs.iter().rev().find(|(l, r)| *l == x || *r == y);
            pair.map_or(x == y, |(l, r)| *l == x && *r == y)
        }
        _ => false,
    }
}
