//! The four judgements. Each asks its questions in order, and the first no ends it.

use crate::fault::Fault;
use crate::store::Store;
use crate::substitution::{put, shape, Outcome};
use crate::tree::{copy, equal, is_kind, is_product, rename, size, Binder, Exp, Form, Head};

const CLASSIFIER: u32 = 1;
const TYPE: u32 = 2;
const OBJECT: u32 = 3;
const SPINE: u32 = 4;

/// Checks over a store, with a work table of a given length.
pub struct Checker<'a> {
    store: &'a Store,
    table: usize,
    /// The nodes read and the nodes written so far.
    used: usize,
    /// The open binders with their types, the newest last.
    context: Vec<(Binder, Exp)>,
}

impl<'a> Checker<'a> {
    /// A checker in the empty context, after so many nodes were read.
    pub fn new(store: &'a Store, table: usize, read: usize) -> Checker<'a> {
        Checker { store, table, used: read, context: Vec::new() }
    }

    /// The nodes read and the nodes written so far.
    pub fn used(&self) -> usize {
        self.used
    }

    pub fn classifier(&mut self, e: &Exp) -> Result<(), Fault> {
        match &e.form {
            Form::Type => Ok(()),
            Form::Product(x, a, b) => {
                self.typ(a)?;
                self.under(*x, a, |checker| checker.classifier(b))
            }
            Form::Headed(..) => self.typ(e),
            Form::Abstraction(..) => Err(Fault::new(31, e.at, CLASSIFIER)),
        }
    }

    pub fn typ(&mut self, e: &Exp) -> Result<(), Fault> {
        match &e.form {
            Form::Product(x, a, b) => {
                self.typ(a)?;
                self.under(*x, a, |checker| checker.typ(b))
            }
            Form::Headed(Head::Variable(_), _) => Err(Fault::new(32, e.at, TYPE)),
            Form::Headed(head, spine) => {
                let k = self.bring(*head, e.at, TYPE)?;
                Fault::ask(is_kind(&k), 32, e.at, TYPE)?;
                self.spine(spine, k, e.at).map(|_| ())
            }
            Form::Type | Form::Abstraction(..) => Err(Fault::new(31, e.at, TYPE)),
        }
    }

    /// The object `m` is against `q`.
    pub fn object(&mut self, m: &Exp, q: &Exp) -> Result<(), Fault> {
        match &m.form {
            Form::Abstraction(x, body) => {
                let Form::Product(y, a, b) = &q.form else {
                    return Err(Fault::new(34, m.at, OBJECT));
                };
                let b = rename(b, *y, *x);
                self.under(*x, a, |checker| checker.object(body, &b))
            }
            Form::Headed(head, spine) => {
                Fault::ask(!is_product(q), 33, m.at, OBJECT)?;
                let c = self.bring(*head, m.at, OBJECT)?;
                Fault::ask(!is_kind(&c), 32, m.at, OBJECT)?;
                let p = self.spine(spine, c, m.at)?;
                Fault::ask(equal(&p, q), 37, m.at, OBJECT)
            }
            Form::Type | Form::Product(..) => Err(Fault::new(31, m.at, OBJECT)),
        }
    }

    /// The spine on `c`, whose head is at `at`. Answers what it ends in.
    fn spine(&mut self, spine: &[Exp], c: Exp, at: usize) -> Result<Exp, Fault> {
        let mut c = c;
        for m in spine {
            let Form::Product(x, a, b) = &c.form else {
                return Err(Fault::new(36, m.at, SPINE));
            };
            self.object(m, a)?;
            let budget = self.table.saturating_sub(self.used);
            match put(m, &shape(a), *x, b, budget) {
                Outcome::Done(result, number) => {
                    self.used += number;
                    c = result;
                }
                Outcome::NoResult(_) => return Err(Fault::new(38, m.at, SPINE)),
                Outcome::TooLong => return Err(Fault::new(39, m.at, SPINE)),
            }
        }
        Fault::ask(!is_product(&c), 35, at, SPINE)?;
        Ok(c)
    }

    /// A copy of what classifies the head, if its nodes fit.
    fn bring(&mut self, head: Head, at: usize, judgement: u32) -> Result<Exp, Fault> {
        let classifier = match head {
            Head::Constant(c) => &self.store.entry(c).classifier,
            Head::Variable(x) => {
                let entry = self.context.iter().rev().find(|(y, _)| *y == x);
                &entry.expect("the binder of a variable is open").1
            }
        };
        self.used += size(classifier);
        Fault::ask(self.used <= self.table, 39, at, judgement)?;
        Ok(copy(classifier))
    }

    /// Checks with the binder `x` of type `a` as the newest entry of the context.
    fn under(
        &mut self,
        x: Binder,
        a: &Exp,
        check: impl FnOnce(&mut Self) -> Result<(), Fault>,
    ) -> Result<(), Fault> {
        self.context.push((x, a.clone()));
        check(self)?;
        self.context.pop();
        Ok(())
    }
}
