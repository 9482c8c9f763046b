//! Receive over small sound states: every owner, mark, length, cursor and request.

use state::{Call, Direction, State};

use super::Size;
use crate::rng::Rng;
use crate::rules::receive::available;
use crate::runner::Runner;
use crate::states;

/// Records and buffer length.
pub const SHAPES: &[(usize, usize)] = &[(4, 4), (4, 8), (4, 9), (5, 5), (4, 14), (5, 11), (6, 6), (6, 13), (4, 12)];

pub fn run(runner: &mut Runner, size: Size, rng: &Rng) {
    for &(n, len) in SHAPES {
        each_state(Direction::Receive, n, len, size.received, rng, |state, _| {
            each_cursor(state, |state| calls(runner, state));
            runner.done()
        });
    }
}

/// Every state of a shape, or `limit` random ones where there are more. Nexts are random: no call of a view reads
/// them, and each must leave all but its own alone.
pub fn each_state(direction: Direction, n: usize, len: usize, limit: usize, rng: &Rng, mut visit: impl FnMut(&mut State, &Rng) -> bool) {
    let mut state = states::ring(direction, n, len);
    let bases: Vec<usize> = state.records.iter().map(states::codes).collect();
    let total: usize = bases.iter().product();
    for count in 0..total.min(limit) {
        let mut code = count;
        for (record, base) in state.records.iter_mut().zip(&bases) {
            let digit = if total > limit { rng.below(*base) } else { code % base };
            code /= base;
            states::set_fields(record, digit);
            record.next = states::next(rng, n);
        }
        if visit(&mut state, rng) {
            return;
        }
    }
}

pub fn each_cursor(state: &mut State, mut visit: impl FnMut(&mut State)) {
    for cursor in 0..state.n() {
        state.cursor = cursor;
        let offsets = states::offsets(state, cursor);
        for offset in std::iter::once(0).chain(offsets) {
            state.offset = offset;
            visit(state);
        }
    }
    (state.cursor, state.offset) = (0, 0);
}

fn calls(runner: &mut Runner, state: &mut State) {
    for call in [Call::Available, Call::Peek, Call::PeekUntilEof] {
        runner.check(call, state);
    }
    let most = available(state) + 2;
    for k in (0..=most).chain([usize::MAX]) {
        runner.check(Call::Consume(k), state);
    }
    for k in 0..=most {
        state.lent.clear();
        state.lent.resize(k, 0xEE);
        runner.check(Call::Pop, state);
    }
    state.lent.clear();
}
