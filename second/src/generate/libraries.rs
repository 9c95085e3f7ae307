//! Five libraries, each with a maker of claims that hold.

use super::higher::higher;
use super::lambda::{lambda, LAMBDA};
use super::logic::{logic, LOGIC};
use super::numbers::{stack, vectors, PLUS, STACK, VECTORS};
use super::random::Chance;
use super::tree::{read, Exp};

/// The statement of a claim and its proof.
pub type Claim = (Exp, Exp);

/// Makes a claim that holds; now and then it finds none.
pub type Maker = Box<dyn Fn(&mut Chance) -> Option<Claim>>;

pub struct Library {
    pub constants: Vec<(String, Exp)>,
    pub claim: Maker,
}

pub fn library(which: usize, chance: &mut Chance) -> Library {
    match which {
        0 => fixed(&[NUMBERS, LOGIC], logic),
        1 => fixed(&[LAMBDA], lambda),
        2 => fixed(&[NUMBERS, PLUS, STACK], stack),
        3 => fixed(&[NUMBERS, PLUS, VECTORS], vectors),
        _ => higher(chance),
    }
}

/// The worked library of eight constants.
pub const WORKED: &str = "nat : type; z : nat; s : nat -> nat; o : type; eq : nat -> nat -> o;
    all : (nat -> o) -> o; pf : o -> type;
    inst : {p:nat -> o} {t:nat} pf (all [x] p x) -> pf (p t)";

pub const NUMBERS: &str = "nat : type; z : nat; s : nat -> nat";

/// Constants from texts that are divided by semicolons.
pub fn constants(texts: &[&str]) -> Vec<(String, Exp)> {
    let parts = texts.iter().flat_map(|text| text.split(';'));
    let pairs = parts.map(|part| part.split_once(':').expect("a colon"));
    pairs.map(|(n, e)| (n.trim().to_string(), read(e))).collect()
}

fn fixed(texts: &[&str], claim: fn(&mut Chance) -> Option<Claim>) -> Library {
    Library { constants: constants(texts), claim: Box::new(claim) }
}
