//! The runs, each over one kind of input.

mod aligned;
mod device;
mod documents;
mod fresh;
mod pieces;
mod receive;
mod refusals;
mod sequences;
mod transmit;
mod wide;
mod words;

use crate::rng::Rng;
use crate::runner::Runner;

/// How much is run. `scale` multiplies the random runs; the others bound the exhaustive ones for each shape: where a
/// shape has more states than that, so many random ones are taken.
#[derive(Clone, Copy)]
pub struct Size {
    pub scale: usize,
    pub received: usize,
    pub sent: usize,
}

pub const QUICK: Size = Size { scale: 1, received: 21_000, sent: 6_000 };
/// For planted faults, which want no more than this.
pub const SMALL: Size = Size { scale: 1, received: 300, sent: 300 };
pub const LONG: Size = Size { scale: 8, received: 340_000, sent: 263_000 };

pub type Run = fn(&mut Runner, Size, &Rng);

pub const RUNS: &[(&str, Run)] = &[
    ("the documents' own examples", documents::run),
    ("the inputs of docs/DIFFERENCES.md", crate::document::run),
    ("new and prepare", fresh::run),
    ("receive, small states exhaustively", receive::run),
    ("transmit, small states exhaustively", transmit::run),
    ("device steps", device::run),
    ("unsound states and refusals", refusals::run),
    ("words that are no ring (ours alone)", words::run),
    ("alignment", aligned::run),
    ("head and tail", pieces::run),
    ("wide states, up to 64 records of 4095 bytes", wide::run),
    ("sequences from new and prepare", sequences::run),
];
