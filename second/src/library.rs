//! A library over a store: its calls, with their refusals in order.

use crate::fault::Fault;
use crate::judgement::Checker;
use crate::reader::{declaration, expression};
use crate::store::{Kind, Store};
use crate::tree::each_constant;

/// The most bytes of a text.
const TEXT: usize = 4096;
/// The most nodes of a work table.
const TABLE: usize = 32768;

#[derive(Clone, Debug)]
pub struct Library {
    store: Store,
}

impl Library {
    /// A library over an empty store.
    pub fn new(kind: Kind) -> Library {
        Library { store: Store::new(kind) }
    }

    pub fn store(&self) -> &Store {
        &self.store
    }

    /// Declares a constant, with a work table of the given length. Answers the
    /// constant's number and the work number.
    pub fn declare(&mut self, text: &[u8], table: usize) -> Result<(usize, usize), Fault> {
        Fault::ask(text.len() <= TEXT, 11, 0, 0)?;
        table_keeps_limits(table, text.len())?;
        let declared = declaration(text, &self.store)?;
        Fault::ask(self.store.find(declared.name).is_none(), 42, declared.place, 0)?;
        let exp = &declared.read.exp;
        let mut checker = Checker::new(&self.store, table, declared.read.nodes);
        checker.classifier(exp)?;
        let work = checker.used();
        let full = self.store.full(declared.name, declared.read.nodes);
        Fault::ask(!full, 43, declared.place, 0)?;
        let name = declared.name.to_vec();
        Ok((self.store.add(name, exp), work))
    }

    /// Checks a proof against a statement. Answers the work number.
    pub fn claim(&self, statement: &[u8], proof: &[u8], table: usize) -> Result<usize, Fault> {
        Fault::ask(statement.len() <= TEXT, 11, 0, 0)?;
        Fault::ask(proof.len() <= TEXT, 11, 0, 0).map_err(Fault::in_proof)?;
        table_keeps_limits(table, statement.len() + proof.len())?;
        let statement = expression(statement, &self.store)?;
        let proof = expression(proof, &self.store).map_err(Fault::in_proof)?;
        let mut checker = Checker::new(&self.store, table, statement.nodes + proof.nodes);
        checker.typ(&statement.exp)?;
        checker.object(&proof.exp, &statement.exp).map_err(Fault::in_proof)?;
        Ok(checker.used())
    }

    /// The count of constants.
    pub fn count(&self) -> usize {
        self.store.count()
    }

    /// The number of the constant with this name.
    pub fn look_up(&self, name: &[u8]) -> Option<usize> {
        self.store.find(name)
    }

    /// All that constant n rests on, ascending, with a number table of the given length.
    pub fn rests_on(&self, n: usize, numbers: usize) -> Result<Vec<usize>, Fault> {
        self.query_keeps_limits(n, numbers)?;
        let mut found = vec![false; self.count()];
        found[n] = true;
        // A classifier names only constants with smaller numbers.
        for i in (0..=n).rev() {
            if found[i] {
                each_constant(&self.store.entry(i).classifier, &mut |c| found[c] = true);
            }
        }
        Ok(ascending(&found))
    }

    /// All constants that rest on constant n, ascending.
    pub fn carries(&self, n: usize, numbers: usize) -> Result<Vec<usize>, Fault> {
        self.query_keeps_limits(n, numbers)?;
        let mut found = vec![false; self.count()];
        found[n] = true;
        for i in n + 1..self.count() {
            let mut reaches = false;
            each_constant(&self.store.entry(i).classifier, &mut |c| {
                reaches |= found[c];
            });
            found[i] = reaches;
        }
        Ok(ascending(&found))
    }

    fn query_keeps_limits(&self, n: usize, numbers: usize) -> Result<(), Fault> {
        Fault::ask(n < self.count(), 51, 0, 0)?;
        Fault::ask(numbers >= self.count(), 52, 0, 0)
    }
}

/// Is the work table long enough for so many bytes, and not too long?
fn table_keeps_limits(table: usize, bytes: usize) -> Result<(), Fault> {
    Fault::ask(table <= TABLE && table >= 2 * bytes, 12, 0, 0)
}

/// The numbers that are marked.
fn ascending(found: &[bool]) -> Vec<usize> {
    (0..found.len()).filter(|i| found[*i]).collect()
}
