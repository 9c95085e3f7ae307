//! Hereditary substitution: put and apply, with the counts of the nodes they write.

use crate::tree::{copy, node, size, Binder, Exp, Form, Head};
use std::rc::Rc;

/// What is left of a type when only its products are looked at.
#[derive(Debug)]
pub enum Shape {
    Base,
    Arrow(Rc<Shape>, Rc<Shape>),
}

/// The shape of an expression.
pub fn shape(e: &Exp) -> Rc<Shape> {
    Rc::new(match &e.form {
        Form::Product(_, a, b) => Shape::Arrow(shape(a), shape(b)),
        _ => Shape::Base,
    })
}

/// What comes of a put: a result and its number, or no result and the count up to
/// there, or more nodes than the budget has.
#[derive(Debug)]
pub enum Outcome {
    Done(Exp, usize),
    NoResult(usize),
    TooLong,
}

/// Puts `m`, at the shape `a`, for the variable `x` in `e`. It writes at most `budget`
/// nodes. The binders of `e` keep their identities: `e` is a part of a copy that was
/// brought, so none of them is free in `m`.
pub fn put(m: &Exp, a: &Shape, x: Binder, e: &Exp, budget: usize) -> Outcome {
    let mut pen = Pen { written: 0, budget };
    match pen.put(m, a, x, e) {
        Ok(result) => Outcome::Done(result, pen.written),
        Err(Stop::NoResult) => Outcome::NoResult(pen.written),
        Err(Stop::TooLong) => Outcome::TooLong,
    }
}

enum Stop {
    NoResult,
    TooLong,
}

/// Counts the nodes written.
struct Pen {
    written: usize,
    budget: usize,
}

impl Pen {
    fn write(&mut self, nodes: usize) -> Result<(), Stop> {
        self.written += nodes;
        if self.written > self.budget {
            return Err(Stop::TooLong);
        }
        Ok(())
    }

    fn put(&mut self, m: &Exp, a: &Shape, x: Binder, e: &Exp) -> Result<Exp, Stop> {
        if let Form::Headed(Head::Variable(y), spine) = &e.form {
            if *y == x {
                let spine = self.put_spine(m, a, x, spine)?;
                self.write(size(m))?;
                return self.apply(copy(m), a, &spine);
            }
        }
        self.write(1)?;
        let form = match &e.form {
            Form::Type => Form::Type,
            Form::Product(y, b, c) => {
                let b = self.put(m, a, x, b)?;
                Form::Product(*y, b, self.put(m, a, x, c)?)
            }
            Form::Abstraction(y, n) => Form::Abstraction(*y, self.put(m, a, x, n)?),
            Form::Headed(h, spine) => Form::Headed(*h, self.put_spine(m, a, x, spine)?),
        };
        Ok(node(0, form))
    }

    fn put_spine(
        &mut self,
        m: &Exp,
        a: &Shape,
        x: Binder,
        spine: &[Exp],
    ) -> Result<Vec<Exp>, Stop> {
        let mut result = Vec::with_capacity(spine.len());
        for n in spine {
            self.write(1)?;
            result.push(self.put(m, a, x, n)?);
        }
        self.write(1)?;
        Ok(result)
    }

    /// Applies `m`, at the shape `a`, to the spine.
    fn apply(&mut self, m: Exp, a: &Shape, spine: &[Exp]) -> Result<Exp, Stop> {
        match (&m.form, a, spine) {
            (Form::Headed(..), Shape::Base, []) => Ok(m),
            (Form::Abstraction(x, n), Shape::Arrow(a, b), [first, rest @ ..]) => {
                let n = self.put(first, a, *x, n)?;
                self.apply(n, b, rest)
            }
            _ => Err(Stop::NoResult),
        }
    }
}
