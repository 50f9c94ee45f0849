//! The calls of document 01, with document 02's #101, #102, #103, #106, #107, #109, #111 and #113, written a second time from their words alone
//! and as plainly as they allow: tables are lists of rows, residues are u64, and a board is a list of frames. Each function here gets the
//! memory that a call is lent, changes it as the documents say, and answers the number that C sees. What was met on the way is counted,
//! so that the end of the run can ask whether every refusal and every order of two refusals was reached.

mod clashes;
mod field;
mod frames;
mod ledger;
mod met;
mod relays;
mod tables;

pub use clashes::clash;
pub use field::*;
pub use frames::*;
pub use ledger::*;
pub use met::{met, note_modulus, take_met, Met};
pub use tables::*;
