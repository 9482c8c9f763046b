//! The longer faults that are planted: each spoils one outcome in one way.

use state::{Answer, Call, Device, Owner, State};

pub fn refuse(before: &State, answer: &mut Answer, state: &mut State, number: u8) {
    (*answer, *state) = (Answer::Refused(number), before.clone());
}

pub fn excess_first(state: &mut State) {
    let last = state.n() - 1;
    let (first, end) = (state.records[0].size, state.records[last].size);
    (state.records[0].size, state.records[last].size) = (end, first);
}

pub fn last_length(state: &mut State) {
    if let Some(last) = state.records.last_mut() {
        last.length = last.size;
    }
}

pub fn last_next(state: &mut State) {
    if let Some(last) = state.records.last_mut() {
        last.next = Some(0);
    }
}

pub fn keep_link(state: &mut State) {
    if state.cursor > 0 {
        state.records[state.cursor - 1].next = Some(state.cursor);
    }
}

pub fn more(answer: &mut Answer, by: usize) {
    if let Answer::Bytes(k) = answer {
        *k += by;
    }
}

pub fn less(answer: &mut Answer) {
    if let Answer::Bytes(k @ 1..) = answer {
        *k -= 1;
    }
}

/// Only where something is available, or an empty run would be counted as well.
pub fn lengths(before: &State, available: usize) -> usize {
    if available == 0 { 0 } else { crate::rules::receive::available(before) }
}

pub fn slip(before: &State, answer: &mut Answer) {
    if let Answer::Part { at, len: 1.. } = answer
        && before.cursor + 1 == before.n()
    {
        *at -= before.offset;
    }
}

pub fn run_on(before: &State, answer: &mut Answer) {
    if let (Answer::PartEof { eof: true, .. }, Answer::Part { at, len }) = (&answer, crate::rules::receive::peek(before)) {
        *answer = Answer::part_eof(at, len, true);
    }
}

pub fn went(before: &State, state: &State, i: usize) -> bool {
    before.records[i].owner == Owner::Cpu && state.records[i].owner == Owner::Dma
}

pub fn keep_next(before: &State, state: &mut State) {
    for i in 0..state.n() {
        if went(before, state, i) && state.records[i].next.is_none() {
            state.records[i].next = before.records[i].next;
        }
    }
}

pub fn keep_previous(before: &State, state: &mut State) {
    let n = state.n();
    for i in 0..n {
        if went(before, state, i) && !went(before, state, (i + n - 1) % n) {
            state.records[(i + n - 1) % n].next = before.records[(i + n - 1) % n].next;
        }
    }
}

pub fn keep_marks(before: &State, state: &mut State) {
    for i in 0..state.n() {
        if went(before, state, i) {
            state.records[i].eof = before.records[i].eof;
        }
    }
}

pub fn pass_over(before: &State, state: &mut State) {
    if crate::rules::sound::sound(before) && before.records[before.cursor].owner == Owner::Cpu {
        crate::rules::receive::consume(state, 0);
    }
}

pub fn from_the_start(before: &State, state: &mut State, count: usize) {
    let at = before.prefilled;
    let bytes: Vec<u8> = state.buffer[at..at + count].into();
    state.buffer.copy_from_slice(&before.buffer);
    state.buffer[..count].copy_from_slice(&bytes);
}

pub fn lose(call: &Call, before: &State, answer: &Answer, state: &mut State) {
    if let (Call::Push(_), Answer::Bytes(count)) = (call, answer) {
        let (at, len) = (before.records[before.cursor].start + before.offset, before.buffer.len());
        if at + count > len {
            state.buffer[0] = before.buffer[0];
        }
    }
}

pub fn short_length(state: &mut State) {
    if state.offset > 0 {
        state.records[state.cursor].length = state.offset;
    }
}

pub fn owner_first(before: &State, answer: &mut Answer, state: &mut State) {
    if let (Answer::Bytes(_), Device::On(i)) = (&answer, before.device)
        && before.records[i].owner == Owner::Cpu
    {
        refuse(before, answer, state, 5);
    }
}

pub fn smaller(call: &Call, answer: &mut Answer) {
    if let (Call::Align(a), Answer::Refused(10)) = (call, &answer) {
        let least = a.internal_alignment.min(a.external_alignment);
        if a.address.is_multiple_of(least) {
            *answer = Answer::Done;
        }
    }
}

pub fn out_length(call: &Call, answer: &mut Answer) {
    if let (Call::Align(a), Answer::Done) = (call, &answer)
        && a.direction == state::Direction::Transmit
        && !a.length.is_multiple_of(a.internal_alignment)
    {
        *answer = Answer::Refused(11);
    }
}
