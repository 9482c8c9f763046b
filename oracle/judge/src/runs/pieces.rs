//! Module 6: every place in a line, small lengths and few records exhaustively; then long ranges to 64 records.

use state::{Call, Chip, Direction, Range, State};

use super::Size;
use crate::rng::Rng;
use crate::rules::pieces::bounce;
use crate::runner::Runner;
use crate::states;

const CHIPS: [Chip; 2] = [Chip::Ordinary, Chip::S2];

pub fn run(runner: &mut Runner, size: Size, rng: &Rng) {
    for chip in CHIPS {
        for place in 0..16 {
            for length in (0..=90).chain(4060..=4120).chain(8150..=8200) {
                let range = Range { address: 0x3C00_0000 + place, length, chip };
                small(runner, rng, range);
            }
            if runner.done() {
                return;
            }
        }
    }
    for _ in 0..4_000 * size.scale {
        long(runner, rng);
    }
}

fn lent(rng: &Rng, n: usize) -> State {
    let mut state = State::blank(Direction::Receive, n, 0);
    for record in &mut state.records {
        states::set_fields(record, rng.below(4 * 4096));
        (record.start, record.size) = (rng.below(99), rng.below(4096));
        record.next = states::next(rng, n);
    }
    state
}

fn small(runner: &mut Runner, rng: &Rng, range: Range) {
    let store = 2 * bounce(range.chip);
    let list = lent(rng, 6);
    runner.check(Call::Cut(range), &list);
    for number in 0..5 {
        runner.check(Call::Piece(range, store, number), &list);
    }
    for n in 0..=6 {
        let list = lent(rng, n);
        runner.check(Call::Pieces(range, store), &list);
    }
    runner.check(Call::Pieces(range, store - 1), &list);
}

fn long(runner: &mut Runner, rng: &Rng) {
    let chip = rng.pick(&CHIPS);
    let lines = rng.below(66) * 4080;
    let length = rng.pick(&[lines as u32 + rng.below(40) as u32, rng.below(300_000) as u32]);
    let top = (u32::MAX - length).wrapping_add(rng.below(40) as u32).wrapping_sub(20);
    let address = if rng.one_in(4) { top } else { rng.next() as u32 };
    let range = Range { address, length, chip };
    let n = rng.pick(&[64, 64, 65, 66, 63, rng.below(64)]);
    let list = lent(rng, n);
    let store = rng.pick(&[48, 48, 48, 100, 2 * bounce(chip), 2 * bounce(chip) - 1, 0]);
    runner.check(Call::Pieces(range, store), &list);
    runner.check(Call::Piece(range, store, rng.below(66)), &list);
    if address as u64 + length as u64 <= 1 << 32 {
        runner.check(Call::Cut(range), &list);
    }
}
