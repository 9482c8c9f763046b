//! Random sound states up to 64 records of 4095 bytes.

use state::{Call, Direction, State};

use super::Size;
use crate::rng::Rng;
use crate::rules::{receive, transmit};
use crate::runner::Runner;
use crate::states;

pub fn run(runner: &mut Runner, size: Size, rng: &Rng) {
    for _ in 0..1_500 * size.scale {
        let n = rng.pick(&[4, 7, 16, 63, 64, rng.between(4, 64)]);
        let len = states::random_length(rng, n);
        let mut state = states::random_sound(rng, Direction::Receive, n, len);
        reading(runner, rng, &mut state);
        let mut state = states::random_sound(rng, Direction::Transmit, n, len);
        writing(runner, rng, &mut state);
        if runner.done() {
            return;
        }
    }
    for _ in 0..8 * size.scale {
        let mut state = states::random_sound(rng, Direction::Receive, 64, 64 * 4095);
        reading(runner, rng, &mut state);
        let mut state = states::random_sound(rng, Direction::Transmit, 64, 64 * 4095);
        writing(runner, rng, &mut state);
    }
}

/// Requests about 0, one record, and all there is.
fn requests(rng: &Rng, available: usize, record: usize) -> [usize; 7] {
    let some = rng.between(0, available);
    [0, 1, record, some, available.saturating_sub(1), available, available + 5]
}

fn reading(runner: &mut Runner, rng: &Rng, state: &mut State) {
    for call in [Call::Available, Call::Peek, Call::PeekUntilEof] {
        runner.check(call, state);
    }
    for k in requests(rng, receive::available(state), state.records[0].size) {
        runner.check(Call::Consume(k), state);
        state.lent.clear();
        state.lent.resize(k, 0xEE);
        runner.check(Call::Pop, state);
    }
    state.lent.clear();
}

fn writing(runner: &mut Runner, rng: &Rng, state: &mut State) {
    for call in [Call::Available, Call::Offer, Call::OfferPrefill, Call::Prepare { pushed: true }] {
        runner.check(call, state);
    }
    let data = rng.bytes(state.buffer.len() + 5);
    for k in requests(rng, transmit::available(state), state.records[0].size) {
        runner.check(Call::Push(&data[..k]), state);
        runner.check(Call::Advance(k), state);
    }
    for k in requests(rng, transmit::offered(state).1, state.records[0].size) {
        runner.check(Call::Commit(k), state);
    }
    for k in requests(rng, state.buffer.len() - state.prefilled, state.records[0].size) {
        runner.check(Call::Prefill(&data[..k]), state);
        runner.check(Call::CommitPrefill(k), state);
    }
}
