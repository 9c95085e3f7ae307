//! Faults: the answers of calls that say no.

/// A fault. The text is 1 for the proof of a claim, else 0. The judgement is 0 for
/// none, 1 for classifier, 2 for type, 3 for object and 4 for spine.
#[derive(Clone, Copy, Debug, PartialEq, Eq)]
pub struct Fault {
    pub number: u32,
    pub text: u32,
    pub place: usize,
    pub judgement: u32,
}

impl Fault {
    /// A fault in text 0.
    pub fn new(number: u32, place: usize, judgement: u32) -> Fault {
        Fault { number, text: 0, place, judgement }
    }

    /// Asks a question in text 0. A no is this fault.
    pub fn ask(yes: bool, number: u32, place: usize, judgement: u32) -> Result<(), Fault> {
        yes.then_some(()).ok_or(Fault::new(number, place, judgement))
    }

    /// The same fault, in the proof of a claim.
    pub fn in_proof(self) -> Fault {
        Fault { text: 1, ..self }
    }

    /// The tens of the number.
    pub fn layer(&self) -> u32 {
        self.number / 10
    }
}
