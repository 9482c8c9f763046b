//! Transmit over small sound states: every owner, mark, length, cursor and request.

use state::{Call, Direction, State};

use super::Size;
use super::receive::{SHAPES, each_cursor, each_state};
use crate::rng::Rng;
use crate::rules::transmit::{available, offered};
use crate::runner::Runner;

const DATA: [u8; 32] = *b"abcdefghijklmnopqrstuvwxyz012345";

pub fn run(runner: &mut Runner, size: Size, rng: &Rng) {
    for &(n, len) in SHAPES {
        each_state(Direction::Transmit, n, len, size.sent, rng, |state, rng| {
            state.prefilled = rng.between(0, len);
            each_cursor(state, |state| calls(runner, state));
            before_prepare(runner, state);
            runner.done()
        });
    }
}

fn calls(runner: &mut Runner, state: &mut State) {
    runner.check(Call::Available, state);
    runner.check(Call::Offer, state);
    for k in 0..=available(state) + 2 {
        runner.check(Call::Push(&DATA[..k]), state);
        runner.check(Call::Advance(k), state);
    }
    runner.check(Call::Advance(state.buffer.len()), state);
    runner.check(Call::Advance(usize::MAX), state);
    let offer = offered(state).1;
    for k in 0..=offer + 2 {
        runner.check(Call::Commit(k), state);
    }
}

fn before_prepare(runner: &mut Runner, state: &mut State) {
    let room = state.buffer.len() - state.prefilled;
    runner.check(Call::OfferPrefill, state);
    for k in 0..=room + 1 {
        runner.check(Call::Prefill(&DATA[..k]), state);
        runner.check(Call::CommitPrefill(k), state);
    }
    let kept = state.prefilled;
    for prefilled in 0..=state.buffer.len() {
        state.prefilled = prefilled;
        runner.check(Call::Prepare { pushed: true }, state);
    }
    state.prefilled = 0;
    runner.check(Call::Prepare { pushed: false }, state);
    state.prefilled = kept;
}
