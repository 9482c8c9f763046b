//! Module 5: the device. It never looks at the owner.

use state::{Answer, Device, Owner, State};

pub fn fill_refusal(state: &State, count: usize) -> Option<u8> {
    match state.device {
        Device::On(i) if i >= state.n() => Some(5),
        Device::On(i) => (count == 0 || count > state.records[i].size).then_some(6),
        Device::Stopped => Some(7),
    }
}

pub fn send_refusal(state: &State) -> Option<u8> {
    match state.device {
        Device::On(i) => (i >= state.n() || state.lent.len() < state.records[i].length).then_some(5),
        Device::Stopped => Some(7),
    }
}

fn stands_on(state: &State) -> usize {
    match state.device {
        Device::On(i) => i,
        Device::Stopped => unreachable!("the refusals were judged"),
    }
}

fn leave(state: &mut State, i: usize) {
    state.records[i].owner = Owner::Cpu;
    state.device = state.records[i].next.map_or(Device::Stopped, Device::On);
}

pub fn fill(state: &mut State, data: &[u8], eof: bool) -> Answer {
    let i = stands_on(state);
    let record = &mut state.records[i];
    record.length = data.len();
    record.eof = eof;
    state.buffer[record.start..][..data.len()].copy_from_slice(data);
    leave(state, i);
    Answer::Bytes(data.len())
}

pub fn send(state: &mut State) -> Answer {
    let i = stands_on(state);
    let record = &state.records[i];
    let bytes = &state.buffer[record.start..][..record.length];
    state.lent[..bytes.len()].copy_from_slice(bytes);
    let sent = bytes.len();
    leave(state, i);
    Answer::Bytes(sent)
}
