//! Random sequences from `new` and `prepare`, with device steps. Each call is compared on the state that the calls
//! before it left. The histories of demand 3 are kept beside them, so that the rules are held to it too.

use std::collections::VecDeque;

use state::{Answer, Call, Direction, State};

use super::Size;
use crate::rng::Rng;
use crate::rules::{receive, transmit};
use crate::runner::Runner;
use crate::states;

pub fn run(runner: &mut Runner, size: Size, rng: &Rng) {
    for _ in 0..2_500 * size.scale {
        let n = rng.pick(&[4, 4, 5, 6, 9, rng.between(4, 64)]);
        let len = states::random_length(rng, n);
        let steps = if len > 4_000 { 60 } else { 240 };
        let ring = begun(runner, Direction::Receive, n, len);
        receiving(runner, rng, ring, steps);
        let ring = begun(runner, Direction::Transmit, n, len);
        sending(runner, rng, ring, rng.between(1, len), steps);
        if runner.done() {
            return;
        }
    }
}

fn begun(runner: &mut Runner, direction: Direction, n: usize, len: usize) -> State {
    let state = State::blank(direction, n, len);
    runner.check(Call::New, &state);
    runner.after.clone()
}

/// One call on the carried state.
fn step(runner: &mut Runner, state: &mut State, call: Call) -> Answer {
    let answer = runner.check(call, state);
    std::mem::swap(state, &mut runner.after);
    answer
}

fn receiving(runner: &mut Runner, rng: &Rng, mut state: State, steps: usize) {
    step(runner, &mut state, Call::Prepare { pushed: true });
    let mut unread = VecDeque::new();
    let eager = rng.between(1, 3);
    for _ in 0..steps {
        state.lent.clear();
        if rng.below(4) < eager {
            device_fills(runner, rng, &mut state, &mut unread);
        } else {
            firmware_reads(runner, rng, &mut state, &mut unread);
        }
        let shown = receive::unread(&state, receive::available(&state));
        runner.claim(unread.iter().eq(&shown), "bytes received are bytes taken followed by bytes unread");
    }
}

fn device_fills(runner: &mut Runner, rng: &Rng, state: &mut State, unread: &mut VecDeque<u8>) {
    let size = state.records[state.n() - 1].size;
    let full = rng.one_in(2);
    let count = if full { state.records[0].size } else { rng.between(1, size) };
    let data = rng.bytes(count);
    if let Answer::Bytes(_) = step(runner, state, Call::Fill(&data, rng.one_in(3))) {
        unread.extend(&data);
        let every = state.records.iter().all(|record| record.owner == state::Owner::Cpu);
        runner.claim(every == (state.device == state::Device::Stopped), "it stops exactly when every record holds unread bytes");
    }
}

fn firmware_reads(runner: &mut Runner, rng: &Rng, state: &mut State, unread: &mut VecDeque<u8>) {
    let k = rng.pick(&[0, 1, 2, rng.between(0, state.buffer.len() + 1), rng.between(0, 3 * state.records[0].size)]);
    match rng.below(6) {
        0 => {
            step(runner, state, Call::Available);
        }
        1 => {
            step(runner, state, Call::Peek);
        }
        2 => {
            step(runner, state, Call::PeekUntilEof);
        }
        3 => {
            if let Answer::Taken { bytes, .. } = step(runner, state, Call::Consume(k)) {
                unread.drain(..bytes);
            }
        }
        _ => {
            state.lent.resize(k, 0xEE);
            if let Answer::Bytes(taken) = step(runner, state, Call::Pop) {
                let front: Vec<u8> = unread.drain(..taken).collect();
                runner.claim(state.lent[..taken] == front, "pop gives the bytes in received order");
            }
        }
    }
}

fn sending(runner: &mut Runner, rng: &Rng, mut state: State, prefill: usize, steps: usize) {
    let mut accepted = VecDeque::from(rng.bytes(prefill));
    let first = accepted.make_contiguous();
    let (one, two) = first.split_at(prefill / 3);
    step(runner, &mut state, Call::Prefill(one));
    step(runner, &mut state, Call::Prefill(two));
    step(runner, &mut state, Call::OfferPrefill);
    step(runner, &mut state, Call::Prepare { pushed: true });
    let eager = rng.between(1, 3);
    for _ in 0..steps {
        state.lent.clear();
        if rng.below(4) < eager {
            device_sends(runner, rng, &mut state, &mut accepted);
        } else {
            firmware_writes(runner, rng, &mut state, &mut accepted);
        }
    }
}

fn device_sends(runner: &mut Runner, rng: &Rng, state: &mut State, accepted: &mut VecDeque<u8>) {
    state.lent.resize(4095 + rng.below(3), 0xEE);
    if let Answer::Bytes(sent) = step(runner, state, Call::Send) {
        let front: Vec<u8> = accepted.drain(..sent).collect();
        runner.claim(state.lent[..sent] == front, "bytes accepted are sent in order");
    }
}

fn firmware_writes(runner: &mut Runner, rng: &Rng, state: &mut State, accepted: &mut VecDeque<u8>) {
    let k = rng.pick(&[0, 1, 2, rng.between(0, 3 * state.records[0].size), rng.between(0, state.buffer.len())]);
    match rng.below(6) {
        0 => {
            step(runner, state, Call::Available);
        }
        1 => {
            step(runner, state, Call::Offer);
        }
        2 => offer_and_commit(runner, state, accepted, k),
        3 => {
            let standing: Vec<u8> = going_round(state, k);
            if let Answer::Bytes(count) = step(runner, state, Call::Advance(k)) {
                accepted.extend(&standing[..count]);
            }
        }
        _ => {
            let data = rng.bytes(k);
            if let Answer::Bytes(count) = step(runner, state, Call::Push(&data)) {
                accepted.extend(&data[..count]);
            }
        }
    }
}

/// The k bytes that stand behind the cursor.
fn going_round(state: &State, k: usize) -> Vec<u8> {
    let at = state.records[state.cursor].start + state.offset;
    (0..k).map(|i| state.buffer[(at + i) % state.buffer.len()]).collect()
}

fn offer_and_commit(runner: &mut Runner, state: &mut State, accepted: &mut VecDeque<u8>, k: usize) {
    let (at, offered) = transmit::offered(state);
    for (i, byte) in state.buffer[at..at + offered].iter_mut().enumerate() {
        *byte = byte.wrapping_add(i as u8 | 1);
    }
    let standing = going_round(state, k);
    if let Answer::Bytes(count) = step(runner, state, Call::Commit(k)) {
        accepted.extend(&standing[..count]);
    }
}
