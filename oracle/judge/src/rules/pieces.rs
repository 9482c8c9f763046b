//! Module 6: head and tail.

use state::{Answer, Chip, Range, State};

use super::split::LIMIT;

const LINE: usize = 16;
const PIECE: usize = 4080;

pub struct Piece {
    pub in_store: bool,
    pub start: usize,
    pub size: usize,
}

pub fn least(chip: Chip) -> usize {
    match chip {
        Chip::Ordinary => 1,
        Chip::S2 => 5,
    }
}

pub fn bounce(chip: Chip) -> usize {
    match chip {
        Chip::Ordinary => 16,
        Chip::S2 => 24,
    }
}

pub fn refusal(n: usize, range: &Range, store: usize) -> Option<u8> {
    if n > LIMIT {
        Some(4)
    } else if store < 2 * bounce(range.chip) {
        Some(5)
    } else {
        (range.address as u64 + range.length as u64 > 1 << 32).then_some(9)
    }
}

/// Head and tail lengths; between them lie whole lines.
pub fn ends(range: &Range) -> (usize, usize) {
    let length = range.length as usize;
    if length <= bounce(range.chip) {
        return (length, 0);
    }
    let grown = |part: usize| if part > 0 && part < least(range.chip) { part + LINE } else { part };
    let head = grown((LINE - range.address as usize % LINE) % LINE);
    (head, grown((length - head) % LINE))
}

pub fn cut(range: &Range) -> Answer {
    let (head, tail) = ends(range);
    Answer::Cut { head, middle: range.length as usize - head - tail, tail }
}

/// The pieces that n records hold.
pub fn list(n: usize, range: &Range) -> Vec<Piece> {
    let (head, tail) = ends(range);
    let end = range.length as usize - tail;
    let mut pieces = Vec::new();
    if head > 0 {
        pieces.push(Piece { in_store: true, start: 0, size: head });
    }
    let mut at = head;
    while at < end && pieces.len() < n {
        let size = PIECE.min(end - at);
        pieces.push(Piece { in_store: false, start: at, size });
        at += size;
    }
    if tail > 0 {
        pieces.push(Piece { in_store: true, start: bounce(range.chip), size: tail });
    }
    pieces.truncate(n);
    pieces
}

pub fn pieces(state: &mut State, range: &Range) -> Answer {
    let list = list(state.n(), range);
    let (mut covered, mut in_store) = (0, 0u128);
    for (i, piece) in list.iter().enumerate() {
        state.records[i].size = piece.size;
        state.records[i].start = piece.start;
        if i > 0 {
            state.records[i - 1].next = Some(i);
        }
        covered += piece.size;
        in_store |= (piece.in_store as u128) << i;
    }
    Answer::Pieces { covered, used: list.len(), in_store }
}

pub fn piece(state: &State, range: &Range, number: usize) -> Answer {
    let piece = &list(state.n(), range)[number];
    Answer::Piece { in_store: piece.in_store, start: piece.start, size: piece.size }
}
