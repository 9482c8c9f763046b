//! The plain state, calls and answers that every voice of the judge shares.
//!
//! A voice is the Rust, the rules of document 01, or our library. Each is asked the same call on the same state.

mod call;
mod plain;
mod show;
mod side;

pub use call::{Align, Answer, Call, Chip, Direction, NAMES, Range, Voice};
pub use plain::{Device, Owner, Record, State};
pub use show::{commands, hex, record_line};
pub use side::Side;
