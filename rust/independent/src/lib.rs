//! A compiler, checker and machine for the decks of the project's paper 01, written from the
//! paper and its recorded readings alone, as plainly as they allow. Proved code is compared with
//! it. Comments in quotation marks are sentences of the paper.
//!
//! The requests of paper 02 are taken in by `Level`; the functions here are those of the base.

pub mod batch;
pub mod cards;
pub mod check;
pub mod compile;
pub mod edition;
pub mod field;
pub mod format;
pub mod generate;
pub mod interpret;
pub mod kinds;
pub mod lent;
pub mod level;
pub mod limits;
pub mod machine;
pub mod map;
pub mod number;
pub mod object;
pub mod operation;
pub mod program;
pub mod reader;
pub mod reason;
pub mod refusal;
mod translate;
mod tree;
mod whole;

pub use check::check;
pub use compile::compile;
pub use lent::Lent;
pub use level::Level;
pub use machine::{bench, run, Ran, State};
pub use map::map;
pub use refusal::Refusal;
