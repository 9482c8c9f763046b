//! `new` over every small shape, the edges of 4095 and 64, and lent records that hold anything; then `prepare`.

use state::{Call, Direction, State};

use super::Size;
use crate::rng::Rng;
use crate::runner::Runner;
use crate::states;

const BOTH: [Direction; 2] = [Direction::Receive, Direction::Transmit];

pub fn run(runner: &mut Runner, size: Size, rng: &Rng) {
    for direction in BOTH {
        for n in 0..=9 {
            (0..=140).for_each(|len| shape(runner, rng, direction, n, len));
        }
        for n in 3..=67 {
            edges(n).into_iter().for_each(|len| shape(runner, rng, direction, n, len));
        }
        for _ in 0..4_000 * size.scale {
            let n = rng.between(4, 64);
            let len = states::random_length(rng, n);
            shape(runner, rng, direction, n, len);
            if runner.done() {
                return;
            }
        }
    }
}

/// Lengths about the places where an answer changes: 0, one and two bytes a record, and 4095 in chunk and last.
fn edges(n: usize) -> Vec<usize> {
    let full = 4095 * n;
    let last = 4094 * n + 1;
    let about = |at: usize| [at.saturating_sub(1), at, at + 1];
    [about(n), about(2 * n), about(n * n), about(full), about(full + n), about(last), about(last + 1)].concat()
}

fn shape(runner: &mut Runner, rng: &Rng, direction: Direction, n: usize, len: usize) {
    let mut state = State::blank(direction, n, len);
    runner.check(Call::New, &state);
    lend_anything(rng, &mut state);
    let answer = runner.check(Call::New, &state);
    if answer != state::Answer::Done {
        return;
    }
    let mut ring = runner.after.clone();
    states::scatter(rng, &mut ring);
    ring.cursor = rng.below(n + 3);
    ring.offset = rng.below(5);
    ring.tally = rng.next() as u32;
    prepare(runner, rng, ring);
}

fn lend_anything(rng: &Rng, state: &mut State) {
    for record in &mut state.records {
        states::set_fields(record, rng.below(4 * 4096));
        record.start = rng.below(1 << 20);
        record.size = rng.below(4096);
        record.next = rng.one_in(2).then(|| rng.below(64));
    }
    (state.cursor, state.offset, state.tally) = (rng.below(70), rng.below(70), rng.next() as u32);
    state.device = rng.pick(&[state::Device::Stopped, state::Device::On(3)]);
}

fn prepare(runner: &mut Runner, rng: &Rng, mut ring: State) {
    if ring.direction == Direction::Transmit {
        runner.check(Call::Prepare { pushed: false }, &ring);
        let (chunk, len) = (ring.records[0].size, ring.buffer.len());
        let counts = [0, 1, chunk - 1, chunk, chunk + 1, 2 * chunk, len - 1, len, len + 1, rng.between(0, len)];
        for prefilled in counts {
            ring.prefilled = prefilled;
            runner.check(Call::Prepare { pushed: true }, &ring);
        }
    } else {
        runner.check(Call::Prepare { pushed: true }, &ring);
    }
}
