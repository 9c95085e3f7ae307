//! Stores: a list of entries and a rule for full.

use crate::tree::{copy, size, Exp};
use std::rc::Rc;

/// The two store kinds.
#[derive(Clone, Copy, Debug, PartialEq, Eq)]
pub enum Kind {
    Flat,
    Module,
}

/// The most nodes of all entries together.
const NODES: usize = 2048;
/// The most modules of a module table.
const MODULES: usize = 16;

impl Kind {
    /// The kind's word in a log.
    pub fn word(self) -> &'static str {
        match self {
            Kind::Flat => "flat",
            Kind::Module => "module",
        }
    }

    /// The most constants.
    fn cap(self) -> usize {
        match self {
            Kind::Flat => 256,
            Kind::Module => 128,
        }
    }
}

/// A name with its classifier and the size of the classifier.
#[derive(Debug)]
pub struct Entry {
    pub name: Vec<u8>,
    pub classifier: Exp,
    pub size: usize,
}

#[derive(Clone, Debug)]
pub struct Store {
    kind: Kind,
    entries: Vec<Rc<Entry>>,
}

impl Store {
    /// An empty store.
    pub fn new(kind: Kind) -> Store {
        Store { kind, entries: Vec::new() }
    }

    pub fn kind(&self) -> Kind {
        self.kind
    }

    pub fn count(&self) -> usize {
        self.entries.len()
    }

    /// The number of the entry with this name.
    pub fn find(&self, name: &[u8]) -> Option<usize> {
        self.entries.iter().position(|entry| entry.name == name)
    }

    /// Entry n, which is below the count.
    pub fn entry(&self, n: usize) -> &Entry {
        &self.entries[n]
    }

    /// Would an add of this name and size be refused for room?
    pub fn full(&self, name: &[u8], size: usize) -> bool {
        let nodes: usize = self.entries.iter().map(|entry| entry.size).sum();
        self.count() >= self.kind.cap()
            || nodes + size > NODES
            || (self.kind == Kind::Module && self.lacks_module(name))
    }

    /// Would the name need one module too many?
    fn lacks_module(&self, name: &[u8]) -> bool {
        let Some(new) = module(name) else {
            return false;
        };
        let mut modules: Vec<&[u8]> = Vec::new();
        for entry in &self.entries {
            if let Some(m) = module(&entry.name) {
                if !modules.contains(&m) {
                    modules.push(m);
                }
            }
        }
        modules.len() >= MODULES && !modules.contains(&new)
    }

    /// Puts an entry last and answers its number. The name is new and the store is not
    /// full.
    pub fn add(&mut self, name: Vec<u8>, classifier: &Exp) -> usize {
        let number = self.count();
        self.entries.push(Rc::new(Entry {
            name,
            classifier: copy(classifier),
            size: size(classifier),
        }));
        number
    }
}

/// What stands before the last `/` of a name.
fn module(name: &[u8]) -> Option<&[u8]> {
    let end = name.iter().rposition(|byte| *byte == b'/')?;
    Some(&name[..end])
}
