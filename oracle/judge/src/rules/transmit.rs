//! Module 4: transmit.

use state::{Answer, Owner, State};

use super::receive::{link_all, run};

pub fn prefill(state: &mut State, data: &[u8]) -> Answer {
    let at = state.prefilled;
    let count = data.len().min(state.buffer.len() - at);
    state.buffer[at..at + count].copy_from_slice(&data[..count]);
    commit_prefill(state, count)
}

pub fn commit_prefill(state: &mut State, count: usize) -> Answer {
    state.prefilled += count;
    state.tally = state.tally.wrapping_add(count as u32);
    Answer::Bytes(count)
}

pub fn prepare(state: &mut State) -> Answer {
    let bytes = state.prefilled;
    link_all(&mut state.records);
    (state.cursor, state.offset, state.prefilled) = (0, 0, 0);
    if bytes > 0 {
        mark_ready(state, bytes);
    }
    Answer::Done
}

/// The first `bytes` bytes are sent; the cursor stands behind them.
fn mark_ready(state: &mut State, bytes: usize) {
    let mut left = bytes;
    let mut whole = 0;
    while whole < state.n() && state.records[whole].size <= left {
        left -= state.records[whole].size;
        state.records[whole].length = state.records[whole].size;
        state.records[whole].eof = true;
        whole += 1;
    }
    if whole == state.n() {
        return;
    }
    if whole == 0 {
        state.records[0].length = left;
        state.records[0].eof = true;
        (whole, left) = (1, 0);
    }
    state.records[whole - 1].next = None;
    for record in &mut state.records[whole..] {
        record.owner = Owner::Cpu;
    }
    (state.cursor, state.offset) = (whole, left);
}

pub fn available(state: &State) -> usize {
    run(state).map(|i| state.records[i].size).sum::<usize>().saturating_sub(state.offset)
}

/// The part on offer: its place and length.
pub fn offered(state: &State) -> (usize, usize) {
    let at = state.records[state.cursor].start + state.offset;
    (at, available(state).min(state.buffer.len() - at))
}

/// Records are filled in ring order, so the bytes go round the buffer from the cursor.
pub fn push(state: &mut State, data: &[u8]) -> Answer {
    let count = data.len().min(available(state));
    let (at, _) = offered(state);
    let len = state.buffer.len();
    for (i, byte) in data[..count].iter().enumerate() {
        state.buffer[(at + i) % len] = *byte;
    }
    accept(state, count)
}

/// The `count` bytes that stand behind the cursor are accepted. `count` is at most what is available.
pub fn accept(state: &mut State, count: usize) -> Answer {
    let mut left = state.offset + count;
    let fits = |&i: &usize| {
        let size = state.records[i].size;
        let fits = size <= left;
        left -= if fits { size } else { 0 };
        fits
    };
    let filled = run(state).take_while(fits).count();
    for step in 0..filled {
        queue(state, (state.cursor + step) % state.n());
    }
    state.cursor = (state.cursor + filled) % state.n();
    state.offset = left;
    state.tally = state.tally.wrapping_add(count as u32);
    Answer::Bytes(count)
}

/// A filled record goes to the device, behind all others.
pub fn queue(state: &mut State, i: usize) {
    let record = &mut state.records[i];
    record.owner = Owner::Dma;
    record.length = record.size;
    record.eof = true;
    record.next = None;
    let n = state.n();
    state.records[(i + n - 1) % n].next = Some(i);
}
