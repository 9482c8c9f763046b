//! Where the runs' states come from.

use state::{Direction, Owner, Record, State};

use crate::rng::Rng;
use crate::rules::split;

/// A ring as `new` leaves it, over bytes that tell their place.
pub fn ring(direction: Direction, n: usize, len: usize) -> State {
    let mut state = State::blank(direction, n, len);
    for (i, byte) in state.buffer.iter_mut().enumerate() {
        *byte = (i * 7 + i / 256 + 1) as u8;
    }
    split::new(&mut state);
    state
}

pub fn next(rng: &Rng, n: usize) -> Option<usize> {
    let place = rng.below(n + 1);
    if place == n { None } else { Some(place) }
}

/// A record's free fields from one number below 4 * (size + 1): every owner, mark and length has one.
pub fn set_fields(record: &mut Record, code: usize) {
    record.owner = if code & 1 == 0 { Owner::Cpu } else { Owner::Dma };
    record.eof = code & 2 != 0;
    record.length = code >> 2;
}

pub fn codes(record: &Record) -> usize {
    4 * (record.size + 1)
}

/// Random owners, marks, lengths and nexts. CPU-owned and full records are made common, so that runs are long.
pub fn scatter(rng: &Rng, state: &mut State) {
    let n = state.n();
    let dma = rng.pick(&[0, 1, 3]);
    for record in &mut state.records {
        let code = rng.below(codes(record));
        set_fields(record, code);
        record.owner = if rng.below(8) < dma { Owner::Dma } else { Owner::Cpu };
        record.length = match rng.below(4) {
            0 => record.length,
            1 => 0,
            _ => record.size,
        };
        record.next = next(rng, n);
    }
}

/// The offsets that are sound at this record, above 0.
pub fn offsets(state: &State, i: usize) -> std::ops::Range<usize> {
    let record = &state.records[i];
    let end = match (record.owner, state.direction) {
        (Owner::Dma, _) => 1,
        (Owner::Cpu, Direction::Receive) => record.length,
        (Owner::Cpu, Direction::Transmit) => record.size,
    };
    1..end.max(1)
}

pub fn place_cursor(rng: &Rng, state: &mut State) {
    state.cursor = rng.below(state.n());
    let offsets = offsets(state, state.cursor);
    let some = !offsets.is_empty() && rng.one_in(2);
    state.offset = if some { rng.between(offsets.start, offsets.end - 1) } else { 0 };
}

/// A random sound ring of this shape.
pub fn random_sound(rng: &Rng, direction: Direction, n: usize, len: usize) -> State {
    let mut state = ring(direction, n, len);
    scatter(rng, &mut state);
    place_cursor(rng, &mut state);
    state.tally = rng.pick(&[0, 1, u32::MAX, u32::MAX - 3, 0x8000_0000]);
    if direction == Direction::Transmit {
        state.prefilled = rng.between(0, len);
    }
    state
}

/// A length that `new` accepts for n records: mostly small, up to 4095 bytes a record.
pub fn random_length(rng: &Rng, n: usize) -> usize {
    let most = rng.pick(&[3, 8, 40, 40, 300, 4095]);
    loop {
        let chunk = rng.between(1, most);
        let len = n * chunk + rng.below(n.min(chunk));
        if split::split(n, len).is_ok() {
            return len;
        }
    }
}
