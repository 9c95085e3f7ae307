//! Values in the notation of the definitions in crates/rules/specs.

use crate::substitution::Shape;
use crate::tree::{Binder, Exp, Form, Head};

/// An expression, with indices for the binders of the scope and for its own. Its places are 0.
pub fn expression(e: &Exp, scope: &mut Vec<Binder>) -> String {
    match &e.form {
        Form::Type => "(typ 0)".to_string(),
        Form::Product(x, a, b) => {
            let left = expression(a, scope);
            format!("(pi {left} {} 0)", below(*x, b, scope))
        }
        Form::Abstraction(x, m) => format!("(lam {} 0)", below(*x, m, scope)),
        Form::Headed(head, spine) => {
            let head = match head {
                Head::Constant(c) => format!("con {c}"),
                Head::Variable(x) => {
                    let index = scope.iter().rev().position(|y| y == x);
                    format!("idx {}", index.expect("the binder of a variable is open"))
                }
            };
            let mut words = format!("(app ({head}) ");
            for m in spine {
                words.push_str(&format!("(arg {} ", expression(m, scope)));
            }
            words.push_str("nil");
            words.push_str(&")".repeat(spine.len()));
            words.push_str(" 0)");
            words
        }
    }
}

fn below(x: Binder, e: &Exp, scope: &mut Vec<Binder>) -> String {
    scope.push(x);
    let words = expression(e, scope);
    scope.pop();
    words
}

pub fn shape(shape: &Shape) -> String {
    match shape {
        Shape::Base => "base".to_string(),
        Shape::Arrow(a, b) => format!("(arrow {} {})", self::shape(a), self::shape(b)),
    }
}

/// A list of items.
pub fn list<T: ToString>(items: impl IntoIterator<Item = T>) -> String {
    let mut words: Vec<String> = items.into_iter().map(|item| item.to_string()).collect();
    words.push("[]".to_string());
    format!("({})", words.join(" ∷ "))
}

/// A list of bytes: runs of characters in quotes, other bytes as numbers.
pub fn bytes(bytes: &[u8]) -> String {
    let quotable = |byte: &u8| matches!(byte, b' '..=b'~') && !matches!(byte, b'"' | b'\\');
    let runs = bytes.chunk_by(|a, b| quotable(a) == quotable(b));
    let words: Vec<String> = runs
        .map(|run| match quotable(&run[0]) {
            true => format!("codes \"{}\"", String::from_utf8_lossy(run)),
            false => list(run),
        })
        .collect();
    match words.is_empty() {
        true => "[]".to_string(),
        false => format!("({})", words.join(" ++ ")),
    }
}
