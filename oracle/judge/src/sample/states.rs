//! Random small states, sound and not, and sequences from `new` and `prepare`.

use state::{Answer, Call, Device, Direction, Owner, State};

use super::script::Script;
use crate::rng::Rng;
use crate::rules::{receive, split, transmit};
use crate::states;

pub fn write(script: &mut Script, rng: &Rng) {
    script.comment("receive");
    for _ in 0..140 {
        receiving(script, rng);
    }
    script.comment("transmit");
    for _ in 0..120 {
        sending(script, rng);
    }
    script.comment("device steps");
    for _ in 0..40 {
        steps(script, rng);
    }
    script.comment("states that are not sound");
    for round in 0..60 {
        unsound(script, rng, round);
    }
    script.comment("sequences");
    for _ in 0..4 {
        receive_sequence(script, rng);
        transmit_sequence(script, rng);
    }
}

fn shape(rng: &Rng) -> (usize, usize) {
    loop {
        let n = rng.pick(&[4, 4, 4, 5, 6]);
        let len = n * rng.between(1, 5) + rng.below(n);
        if split::split(n, len).is_ok() {
            return (n, len);
        }
    }
}

fn sound(rng: &Rng, direction: Direction) -> State {
    let (n, len) = shape(rng);
    let mut state = states::random_sound(rng, direction, n, len);
    state.device = Device::On(rng.below(n));
    state
}

fn receiving(script: &mut Script, rng: &Rng) {
    let state = sound(rng, Direction::Receive);
    let available = receive::available(&state);
    script.set_up(&state);
    for call in [Call::Available, Call::Peek, Call::PeekUntilEof] {
        script.call(call);
    }
    let k = rng.between(0, available + 2);
    if rng.one_in(2) {
        script.call(Call::Consume(k));
    } else {
        script.pop(k);
    }
    script.show();
}

fn sending(script: &mut Script, rng: &Rng) {
    let state = sound(rng, Direction::Transmit);
    let available = transmit::available(&state);
    let data = rng.bytes(state.buffer.len() + 3);
    let k = rng.between(0, available + 2);
    script.set_up(&state);
    script.call(Call::Available);
    script.call(Call::Offer);
    match rng.below(5) {
        0 => script.call(Call::Commit(rng.between(0, transmit::offered(&state).1 + 1))),
        1 => script.call(Call::Advance(k)),
        2 => script.call(Call::Prefill(&data[..rng.below(data.len())])),
        3 => script.call(Call::CommitPrefill(rng.between(0, state.buffer.len() - state.prefilled + 1))),
        _ => script.call(Call::Push(&data[..k])),
    };
    script.show();
    // What stands in the buffer is seen by sending it.
    let queued = (0..state.n()).find(|&i| script.ring.records[i].owner == Owner::Dma);
    script.device(Device::On(queued.unwrap_or(0)));
    script.send(64);
}

fn steps(script: &mut Script, rng: &Rng) {
    let state = sound(rng, Direction::Receive);
    let most = state.records[state.n() - 1].size + 1;
    script.set_up(&state);
    script.call(Call::Fill(&rng.bytes(rng.between(0, most)), rng.one_in(2)));
    script.call(Call::Peek);
    script.show();
    let state = sound(rng, Direction::Transmit);
    script.set_up(&state);
    script.send(rng.below(8));
    script.show();
}

fn unsound(script: &mut Script, rng: &Rng, round: usize) {
    let direction = if round % 2 == 0 { Direction::Receive } else { Direction::Transmit };
    let mut state = sound(rng, direction);
    let (n, i) = (state.n(), rng.below(state.n()));
    match round / 2 % 8 {
        0 => state.records[i].start += 1,
        1 => state.records[i].size += 1,
        2 => state.records[i].length = state.records[i].size + 1,
        3 => state.records[i].next = Some(n),
        4 => state.cursor = n,
        5 => state.offset = state.records[state.cursor].size,
        6 => state.device = Device::On(n),
        _ => (state.records[state.cursor].owner, state.offset) = (Owner::Dma, 1),
    }
    script.set_up(&state);
    match direction {
        Direction::Receive => {
            for call in [Call::Available, Call::Peek, Call::PeekUntilEof, Call::Consume(1), Call::Fill(&[1], false)] {
                script.call(call);
            }
            script.pop(2);
        }
        Direction::Transmit => {
            for call in [Call::Available, Call::Offer, Call::Push(&[1]), Call::Commit(9), Call::Advance(99), Call::Prefill(&[5])] {
                script.call(call);
            }
            script.send(64);
        }
    }
    script.show();
    script.call(Call::Prepare { pushed: true });
    script.show();
}

fn receive_sequence(script: &mut Script, rng: &Rng) {
    let (n, len) = shape(rng);
    script.set_up(&State::blank(Direction::Receive, n, len).split());
    script.call(Call::Prepare { pushed: true });
    for step in 0..30 {
        let k = rng.between(0, len);
        match rng.below(6) {
            0 => script.call(Call::Available),
            1 => script.call(Call::PeekUntilEof),
            2 => script.call(Call::Consume(k)),
            3 => script.pop(k),
            _ => script.call(Call::Fill(&rng.bytes(rng.between(1, len / n)), rng.one_in(3))),
        };
        if step % 6 == 5 {
            script.show();
        }
    }
}

fn transmit_sequence(script: &mut Script, rng: &Rng) {
    let (n, len) = shape(rng);
    script.set_up(&State::blank(Direction::Transmit, n, len).split());
    script.call(Call::Prefill(&rng.bytes(rng.between(1, len))));
    script.call(Call::Prepare { pushed: true });
    for step in 0..30 {
        let k = rng.between(0, len);
        let answer = match rng.below(6) {
            0 => script.call(Call::Available),
            1 => script.call(Call::Offer),
            2 => script.call(Call::Advance(rng.below(3))),
            3 => script.call(Call::Push(&rng.bytes(k))),
            _ => script.send(4095),
        };
        if step % 6 == 5 || answer == Answer::Refused(8) {
            script.show();
        }
    }
}

trait Split {
    fn split(self) -> Self;
}

impl Split for State {
    fn split(mut self) -> State {
        split::new(&mut self);
        self
    }
}
