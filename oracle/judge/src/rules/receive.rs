//! Module 3: receive.

use state::{Answer, Owner, Record, State};

/// The CPU-owned records from the cursor round the ring, by number.
pub fn run(state: &State) -> impl Iterator<Item = usize> + '_ {
    let n = state.n();
    (0..n).map(move |i| (state.cursor + i) % n).take_while(|&i| state.records[i].owner == Owner::Cpu)
}

pub fn prepare(state: &mut State) -> Answer {
    link_all(&mut state.records);
    for record in &mut state.records {
        record.eof = false;
        record.length = 0;
    }
    (state.cursor, state.offset) = (0, 0);
    Answer::Done
}

/// Next i + 1, the last none; all DMA.
pub fn link_all(records: &mut [Record]) {
    let n = records.len();
    for (i, record) in records.iter_mut().enumerate() {
        record.next = if i + 1 < n { Some(i + 1) } else { None };
        record.owner = Owner::Dma;
    }
}

pub fn available(state: &State) -> usize {
    run(state).map(|i| state.records[i].length).sum::<usize>().wrapping_sub(state.offset)
}

/// The records that one part covers: from the cursor through full ones, ending with the first short one, before a
/// DMA-owned one, or at record n-1; with `until_eof` also with the first EOF record.
fn covered(state: &State, until_eof: bool) -> usize {
    let ends = |record: &Record| record.length < record.size || (until_eof && record.eof);
    let open = state.records[state.cursor..].iter().take_while(|record| record.owner == Owner::Cpu);
    let mut count = 0;
    for record in open {
        count += 1;
        if ends(record) {
            break;
        }
    }
    count
}

fn part(state: &State, until_eof: bool) -> (usize, usize, bool) {
    let count = covered(state, until_eof);
    if count == 0 {
        return (0, 0, false);
    }
    let records = &state.records[state.cursor..][..count];
    let bytes = records.iter().map(|record| record.length).sum::<usize>();
    (records[0].start + state.offset, bytes - state.offset, records[count - 1].eof)
}

pub fn peek(state: &State) -> Answer {
    let (at, len, _) = part(state, false);
    Answer::part(at, len)
}

pub fn peek_until_eof(state: &State) -> Answer {
    let (at, len, eof) = part(state, true);
    Answer::part_eof(at, len, eof)
}

/// How many records of the run are used up once `taken` bytes are: the most whose bytes together do not pass them.
/// Empty ones reached with nothing left to take are among them. Also the offset in the record then at the cursor.
fn used_up(state: &State, taken: usize) -> (usize, usize) {
    let mut left = state.offset + taken;
    let fits = |&i: &usize| {
        let length = state.records[i].length;
        let fits = length <= left;
        left -= if fits { length } else { 0 };
        fits
    };
    let count = run(state).take_while(fits).count();
    (count, left)
}

fn take(state: &mut State, taken: usize) -> usize {
    let (back, offset) = used_up(state, taken);
    for step in 0..back {
        give_back(state, (state.cursor + step) % state.n());
    }
    state.cursor = (state.cursor + back) % state.n();
    state.offset = offset;
    state.tally = state.tally.wrapping_add(taken as u32);
    back
}

fn give_back(state: &mut State, i: usize) {
    let record = &mut state.records[i];
    record.owner = Owner::Dma;
    record.eof = false;
    record.length = 0;
    record.next = None;
    let n = state.n();
    state.records[(i + n - 1) % n].next = Some(i);
}

pub fn consume(state: &mut State, k: usize) -> Answer {
    let bytes = k.min(available(state));
    let back = take(state, bytes);
    Answer::Taken { bytes, back }
}

pub fn pop(state: &mut State) -> Answer {
    let first = &state.records[state.cursor];
    if state.lent.is_empty() || (first.owner == Owner::Cpu && first.length == 0) {
        return Answer::Bytes(0);
    }
    let taken = state.lent.len().min(available(state));
    let bytes = unread(state, taken);
    state.lent[..taken].copy_from_slice(&bytes);
    take(state, taken);
    Answer::Bytes(taken)
}

/// The first `count` unread bytes.
pub fn unread(state: &State, count: usize) -> Vec<u8> {
    let mut bytes = Vec::with_capacity(count);
    let mut skip = state.offset;
    for i in run(state) {
        let record = &state.records[i];
        let part = &state.buffer[record.start..record.start + record.length][skip..];
        skip = 0;
        bytes.extend_from_slice(&part[..part.len().min(count - bytes.len())]);
        if bytes.len() == count {
            break;
        }
    }
    bytes
}
