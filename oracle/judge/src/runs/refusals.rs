//! Unsound states: one thing of a sound ring is spoilt, and every call must refuse and change nothing. The Rust is
//! asked only where the list of differences says what it does.

use state::{Call, Device, Direction, State};

use super::Size;
use crate::rng::Rng;
use crate::runner::Runner;
use crate::states;

pub fn run(runner: &mut Runner, size: Size, rng: &Rng) {
    for round in 0..20_000 * size.scale {
        let direction = if round % 2 == 0 { Direction::Receive } else { Direction::Transmit };
        let n = rng.pick(&[4, 4, 5, 6, 64]);
        let len = states::random_length(rng, n).min(n * 9);
        if crate::rules::split::split(n, len).is_err() {
            continue;
        }
        let mut state = states::random_sound(rng, direction, n, len);
        state.device = rng.pick(&[Device::On(0), Device::On(n - 1), Device::On(n), Device::Stopped]);
        spoil(rng, &mut state);
        every_call(runner, rng, &mut state);
        if runner.done() {
            return;
        }
    }
}

fn spoil(rng: &Rng, state: &mut State) {
    let n = state.n();
    let i = rng.pick(&[0, n - 1, rng.below(n)]);
    match rng.below(12) {
        0 => state.records[i].start += 1,
        1 => state.records[i].size -= 1,
        2 => state.records[i].length = state.records[i].size + 1,
        3 => state.records[i].next = Some(n + rng.below(3)),
        4 => state.cursor = n + rng.below(3),
        5 => state.offset = state.records[state.cursor].length.max(1),
        6 => state.offset = state.records[state.cursor].size,
        7 => state.offset = 1,
        8 if state.direction == Direction::Transmit => state.prefilled = state.buffer.len() + rng.between(1, 3),
        9 => state.records.truncate(3),
        10 => state.buffer.push(0),
        _ => state.records.resize(65, state.records[0]),
    }
}

pub fn every_call(runner: &mut Runner, rng: &Rng, state: &mut State) {
    let data = rng.bytes(9);
    let k = rng.below(10);
    let before = [Call::Prepare { pushed: true }, Call::Available];
    let receive = [Call::Peek, Call::PeekUntilEof, Call::Consume(k), Call::Pop, Call::Fill(&data[..k], true)];
    let transmit = [
        Call::Prefill(&data[..k]),
        Call::OfferPrefill,
        Call::CommitPrefill(k),
        Call::Push(&data[..k]),
        Call::Offer,
        Call::Commit(k),
        Call::Advance(k),
        Call::Send,
    ];
    state.lent = vec![0xEE; k];
    for call in before {
        runner.check(call, state);
    }
    match state.direction {
        Direction::Receive => receive.map(|call| runner.check(call, state)).len(),
        Direction::Transmit => transmit.map(|call| runner.check(call, state)).len(),
    };
    state.lent.clear();
}
