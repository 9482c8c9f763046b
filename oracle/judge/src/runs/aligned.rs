//! Module 1: small regions exhaustively, then random 32-bit ones about their edges.

use state::{Align, Call, Direction, State};

use super::Size;
use crate::rng::Rng;
use crate::runner::Runner;

const ALIGNMENTS: [u32; 12] = [1, 2, 4, 8, 16, 32, 64, 0, 3, 12, 96, 128];
const BOTH: [Direction; 2] = [Direction::Receive, Direction::Transmit];

pub fn run(runner: &mut Runner, size: Size, rng: &Rng) {
    let none = State::blank(Direction::Receive, 0, 0);
    small(runner, &none);
    for _ in 0..150_000 * size.scale {
        let asked = random(rng);
        runner.check(Call::Align(asked), &none);
        if runner.done() {
            return;
        }
    }
}

fn small(runner: &mut Runner, none: &State) {
    for address in 0..24 {
        for length in 0..14 {
            for (internal_alignment, external_alignment) in [(1, 1), (1, 4), (4, 1), (2, 8), (4, 4), (1, 3), (0, 1)] {
                for direction in BOTH {
                    let asked =
                        Align { address, length, direction, internal: (4, 12), external: (10, 21), internal_alignment, external_alignment };
                    runner.check(Call::Align(asked), none);
                }
            }
        }
    }
}

fn edge(rng: &Rng) -> u64 {
    match rng.below(5) {
        0 => 0,
        1 => 1 << 32,
        2 => rng.next() >> 32,
        3 => (rng.next() >> 32) & !63,
        _ => (1 << 32) - rng.below(300) as u64,
    }
}

fn random(rng: &Rng) -> Align {
    let internal = (edge(rng), edge(rng));
    let external = if rng.one_in(3) { internal } else { (edge(rng), edge(rng)) };
    let about = rng.pick(&[internal.0, internal.1, external.0, external.1, edge(rng)]);
    let address = (about as i64 + rng.between(0, 260) as i64 - 130).clamp(0, u32::MAX as i64) as u32;
    let address = if rng.one_in(2) { address & !rng.pick(&[3, 15, 63]) } else { address };
    let to = rng.pick(&[internal.1, external.1, 1 << 32]).saturating_sub(address as u64);
    let length = rng.pick(&[0, 1, 16, 64, rng.next() >> 40, to, to + 1, to.saturating_sub(16)]).min(u32::MAX as u64) as u32;
    let direction = rng.pick(&BOTH);
    let alignment = |rng: &Rng| if rng.one_in(40) { rng.next() as u32 } else { ALIGNMENTS[rng.below(if rng.one_in(6) { 12 } else { 7 })] };
    let (internal_alignment, external_alignment) = (alignment(rng), alignment(rng));
    Align { address, length, direction, internal, external, internal_alignment, external_alignment }
}
