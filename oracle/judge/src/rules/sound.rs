//! When a ring is sound.

use state::{Direction, Owner, State};

use super::split::split;

/// What `prepare` and the push before it ask: the split, and for transmit the prefilled count.
pub fn splits(state: &State) -> bool {
    let Ok(split) = split(state.n(), state.buffer.len()) else { return false };
    let as_split = |(i, record): (usize, &state::Record)| record.start == split.start(i) && record.size == split.size(i);
    let counted = state.direction == Direction::Receive || state.prefilled <= state.buffer.len();
    state.records.iter().enumerate().all(as_split) && counted
}

pub fn sound(state: &State) -> bool {
    let n = state.n();
    let fits = |record: &state::Record| record.length <= record.size && record.next.is_none_or(|next| next < n);
    splits(state) && state.records.iter().all(fits) && state.cursor < n && cursor_sound(state)
}

fn cursor_sound(state: &State) -> bool {
    let record = &state.records[state.cursor];
    let cpu = record.owner == Owner::Cpu;
    match state.direction {
        Direction::Receive => state.offset == 0 || (cpu && state.offset < record.length),
        Direction::Transmit => state.offset < record.size && (state.offset == 0 || cpu),
    }
}
