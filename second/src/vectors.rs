//! Seeded cases of put, lift and equality, in the notation of the definitions.

use crate::generate::random::Chance;
use crate::notation;
use crate::substitution::{put, Outcome, Shape};
use crate::tree::{equal, node, Binder, Exp, Form, Head};
use std::rc::Rc;

/// A put that writes more nodes is no case.
const BUDGET: usize = 2000;

/// The open binders with their shapes, the newest last.
type Scope = Vec<(Binder, Rc<Shape>)>;

fn base() -> Rc<Shape> {
    Rc::new(Shape::Base)
}

fn arrow(a: Rc<Shape>, b: Rc<Shape>) -> Rc<Shape> {
    Rc::new(Shape::Arrow(a, b))
}

/// The shapes of the constants 0 to 4.
fn constants() -> Vec<Rc<Shape>> {
    let one = arrow(base(), base());
    let two = arrow(one.clone(), base());
    vec![base(), one.clone(), arrow(base(), one), two.clone(), arrow(two, base())]
}

fn random_shape(chance: &mut Chance, depth: usize) -> Rc<Shape> {
    if depth == 0 || chance.one_in(4) {
        return base();
    }
    let left = random_shape(chance, depth - 1);
    arrow(left, random_shape(chance, depth - 1))
}

/// Makes the expressions of one case.
struct Maker<'a> {
    chance: &'a mut Chance,
    constants: Vec<Rc<Shape>>,
    /// Whether heads have the arguments, and arguments the form, that their shapes ask for.
    fitting: bool,
    /// The binder that heads are drawn from most often.
    favoured: Option<Binder>,
}

impl Maker<'_> {
    fn new(chance: &mut Chance, fitting: bool) -> Maker<'_> {
        Maker { chance, constants: constants(), fitting, favoured: None }
    }

    /// Fewer than `end` open binders.
    fn scope(&mut self, end: usize) -> Scope {
        let count = self.chance.below(end);
        let binder = |_| (Binder::fresh(), random_shape(self.chance, 2));
        (0..count).map(binder).collect()
    }

    fn under(
        &mut self,
        scope: &mut Scope,
        shape: Rc<Shape>,
        make: impl FnOnce(&mut Self, &mut Scope) -> Exp,
    ) -> (Binder, Exp) {
        let binder = Binder::fresh();
        scope.push((binder, shape));
        let made = make(self, scope);
        scope.pop();
        (binder, made)
    }

    /// An expression at a shape, with about `fuel` heads on a path.
    fn object(&mut self, scope: &mut Scope, shape: &Shape, fuel: usize) -> Exp {
        let wild = !self.fitting && self.chance.one_in(5);
        match shape {
            Shape::Arrow(a, b) if !wild => {
                let (x, body) =
                    self.under(scope, a.clone(), |maker, scope| maker.object(scope, b, fuel));
                node(0, Form::Abstraction(x, body))
            }
            Shape::Base if wild => {
                let (x, body) =
                    self.under(scope, base(), |maker, scope| maker.object(scope, shape, fuel));
                node(0, Form::Abstraction(x, body))
            }
            _ => self.headed(scope, fuel),
        }
    }

    /// A head and its shape. Without fuel it takes no arguments.
    fn head(&mut self, scope: &Scope, fuel: usize) -> (Head, Rc<Shape>) {
        let mut heads: Vec<(Head, Rc<Shape>)> = Vec::new();
        for (c, shape) in self.constants.iter().enumerate() {
            heads.push((Head::Constant(c), shape.clone()));
        }
        for (x, shape) in scope {
            let times = if Some(*x) == self.favoured { 6 } else { 2 };
            heads.extend((0..times).map(|_| (Head::Variable(*x), shape.clone())));
        }
        if fuel == 0 {
            heads.retain(|(_, shape)| matches!(**shape, Shape::Base));
        }
        self.chance.pick(&heads).clone()
    }

    /// A head with the arguments that its shape asks for.
    fn headed(&mut self, scope: &mut Scope, fuel: usize) -> Exp {
        let (head, mut shape) = self.head(scope, fuel);
        let mut spine = Vec::new();
        while let Shape::Arrow(a, b) = &*shape.clone() {
            if !self.fitting && self.chance.one_in(12) {
                break;
            }
            spine.push(self.object(scope, a, fuel - 1));
            shape = b.clone();
        }
        if !self.fitting && fuel > 0 && self.chance.one_in(12) {
            spine.push(self.object(scope, &base(), fuel - 1));
        }
        node(0, Form::Headed(head, spine))
    }

    /// A type, a kind or an object at the shape base.
    fn target(&mut self, scope: &mut Scope, fuel: usize) -> Exp {
        match self.chance.below(4) {
            0 if fuel > 0 => {
                let left = self.target(scope, fuel - 1);
                let shape = random_shape(self.chance, 2);
                let (x, right) =
                    self.under(scope, shape, |maker, scope| maker.target(scope, fuel - 1));
                node(0, Form::Product(x, left, right))
            }
            1 if self.chance.one_in(4) => node(0, Form::Type),
            _ => self.object(scope, &base(), fuel),
        }
    }
}

/// The same expression, or one that differs from it in a few places.
fn nearly(chance: &mut Chance, e: &Exp) -> Exp {
    let form = match &e.form {
        Form::Type => Form::Type,
        Form::Product(x, a, b) => Form::Product(*x, nearly(chance, a), nearly(chance, b)),
        Form::Abstraction(x, m) => Form::Abstraction(*x, nearly(chance, m)),
        Form::Headed(head, spine) => {
            let mut spine: Vec<Exp> = spine.iter().map(|m| nearly(chance, m)).collect();
            match (chance.below(24), head) {
                (0, _) => spine.push(node(0, Form::Type)),
                (1, _) => drop(spine.pop()),
                (2, Head::Constant(c)) => {
                    return node(0, Form::Headed(Head::Constant(c + 1), spine))
                }
                (3, _) => return node(0, Form::Abstraction(Binder::fresh(), e.clone())),
                _ => {}
            }
            Form::Headed(*head, spine)
        }
    };
    node(0, form)
}

/// An equation: a call of a definition, and what it has to give.
pub struct Case {
    pub call: String,
    pub result: String,
}

fn binders(scope: &Scope) -> Vec<Binder> {
    scope.iter().map(|entry| entry.0).collect()
}

/// A put, if it does not write too much.
fn put_case(chance: &mut Chance) -> Option<Case> {
    let fitting = !chance.one_in(3);
    let mut maker = Maker::new(chance, fitting);
    let shape = random_shape(maker.chance, 3);
    // the binders outside, the one that is put for, and k binders inside it
    let mut outside = maker.scope(3);
    let x = Binder::fresh();
    let inside = maker.scope(3);
    let m = match !fitting && maker.chance.one_in(4) {
        true => maker.target(&mut outside, 2),
        false => maker.object(&mut outside, &shape, 2),
    };
    let mut scope = outside.clone();
    scope.push((x, shape.clone()));
    scope.extend(inside.iter().cloned());
    maker.favoured = Some(x);
    let e = maker.target(&mut scope, 3);

    let call = format!(
        "put {} {} {} {}",
        notation::expression(&m, &mut binders(&outside)),
        notation::shape(&shape),
        inside.len(),
        notation::expression(&e, &mut binders(&scope)),
    );
    let result = match put(&m, &shape, x, &e, BUDGET) {
        Outcome::Done(result, number) => {
            let mut left = binders(&outside);
            left.extend(binders(&inside));
            format!("made {number} {}", notation::expression(&result, &mut left))
        }
        Outcome::NoResult(number) => format!("lost {number}"),
        Outcome::TooLong => return None,
    };
    Some(Case { call, result })
}

/// A lift: the same expression, with d more binders around the c innermost of its scope.
fn lift_case(chance: &mut Chance) -> Case {
    let mut maker = Maker::new(chance, true);
    let mut scope = maker.scope(4);
    let e = maker.target(&mut scope, 3);
    let mut scope = binders(&scope);
    let before = notation::expression(&e, &mut scope);
    let c = chance.below(scope.len() + 1);
    let d = chance.below(4);
    let place = scope.len() - c;
    scope.splice(place..place, (0..d).map(|_| Binder::fresh()));
    Case { call: format!("lift {d} {c} {before}"), result: notation::expression(&e, &mut scope) }
}

/// A comparison of an expression with itself or with one that is nearly the same.
fn same_case(chance: &mut Chance) -> Case {
    let mut maker = Maker::new(chance, true);
    let mut scope = maker.scope(3);
    let e = maker.target(&mut scope, 3);
    let f = nearly(chance, &e);
    let mut scope = binders(&scope);
    let left = notation::expression(&e, &mut scope);
    let right = notation::expression(&f, &mut scope);
    Case { call: format!("same {left} {right}"), result: equal(&e, &f).to_string() }
}

/// `count` cases: of five, three are puts, one is a lift and one a comparison.
pub fn cases(count: usize, seed: u64) -> Vec<Case> {
    let mut chance = Chance::new(seed);
    let mut cases = Vec::new();
    while cases.len() < count {
        match cases.len() % 5 {
            3 => cases.push(lift_case(&mut chance)),
            4 => cases.push(same_case(&mut chance)),
            _ => cases.extend(put_case(&mut chance)),
        }
    }
    cases
}
