//! A second checker of canonical LF, a generator of logs, and comparisons by them.

pub mod compare;
pub mod fault;
pub mod generate;
pub mod judgement;
pub mod lemmas;
pub mod lexer;
pub mod library;
pub mod log;
pub mod notation;
pub mod reader;
pub mod store;
pub mod substitution;
pub mod tree;
pub mod vectors;

pub use fault::Fault;
pub use library::Library;
pub use log::{lines, replay, Reply, Session};
pub use store::{Kind, Store};

/// Does the work on a thread with a stack for the deepest trees: they are walked, and
/// dropped, by recursion.
pub fn deep<T: Send + 'static>(work: impl FnOnce() -> T + Send + 'static) -> T {
    let thread = std::thread::Builder::new().stack_size(256 << 20).spawn(work);
    let answer = thread.expect("there is room for a stack of 256 MiB").join();
    answer.unwrap_or_else(|panic| std::panic::resume_unwind(panic))
}
