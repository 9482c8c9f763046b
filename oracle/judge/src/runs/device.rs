//! Device steps on random sound rings. The Rust has no device: the rules and ours are held together.

use state::{Call, Device, Direction};

use super::Size;
use crate::rng::Rng;
use crate::runner::Runner;
use crate::states;

pub fn run(runner: &mut Runner, size: Size, rng: &Rng) {
    for _ in 0..30_000 * size.scale {
        receive(runner, rng);
        transmit(runner, rng);
        if runner.done() {
            return;
        }
    }
}

fn shape(rng: &Rng) -> (usize, usize) {
    let n = rng.between(4, 9);
    (n, states::random_length(rng, n).min(400).max(n))
}

fn device(rng: &Rng, n: usize) -> Device {
    if rng.one_in(8) { Device::Stopped } else { Device::On(rng.below(n + 1)) }
}

fn receive(runner: &mut Runner, rng: &Rng) {
    let (n, len) = shape(rng);
    if crate::rules::split::split(n, len).is_err() {
        return;
    }
    let mut state = states::random_sound(rng, Direction::Receive, n, len);
    state.device = device(rng, n);
    let most = state.records[n - 1].size + 1;
    let data = rng.bytes(most);
    for count in [0, 1, rng.between(0, most), state.records[0].size, most] {
        runner.check(Call::Fill(&data[..count], rng.one_in(2)), &state);
    }
}

fn transmit(runner: &mut Runner, rng: &Rng) {
    let (n, len) = shape(rng);
    if crate::rules::split::split(n, len).is_err() {
        return;
    }
    let mut state = states::random_sound(rng, Direction::Transmit, n, len);
    state.device = device(rng, n);
    let length = match state.device {
        Device::On(i) if i < n => state.records[i].length,
        _ => 3,
    };
    for room in [0, length.saturating_sub(1), length, length + 3, 4095] {
        state.lent = vec![0xEE; room];
        runner.check(Call::Send, &state);
    }
}
