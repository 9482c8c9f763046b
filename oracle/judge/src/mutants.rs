//! The wrong answers. Each alters what one call answers or leaves, in one way, where that way shows.

use state::{Answer, Call, Device, State};

use crate::faults::*;

pub type Fault = fn(&Call, &State, &mut Answer, &mut State);

pub struct Mutant {
    /// The call's place in NAMES.
    pub call: usize,
    pub kind: &'static str,
    pub fault: Fault,
}

const fn mutant(call: usize, kind: &'static str, fault: Fault) -> Mutant {
    Mutant { call, kind, fault }
}

pub const MUTANTS: &[Mutant] = &[
    mutant(0, "the excess goes to the first record", |_, _, a, s| {
        if *a == Answer::Done {
            excess_first(s)
        }
    }),
    mutant(0, "refuses all", |_, b, a, s| refuse(b, a, s, 1)),
    mutant(0, "an uneven split is accepted", |_, _, a, _| {
        if *a == Answer::Refused(3) {
            *a = Answer::Done
        }
    }),
    mutant(0, "a refusal writes a record", |_, _, a, s| {
        if *a == Answer::Refused(1) && s.n() > 0 {
            s.records[0].size ^= 1
        }
    }),
    mutant(1, "the last length is the last size", |_, _, a, s| {
        if *a == Answer::Done {
            last_length(s)
        }
    }),
    mutant(1, "lent nexts are cleared", |_, _, a, s| {
        if *a == Answer::Done {
            s.records.iter_mut().for_each(|r| r.next = None)
        }
    }),
    mutant(2, "the last record's next is the first", |_, _, a, s| {
        if *a == Answer::Done {
            last_next(s)
        }
    }),
    mutant(2, "an EOF mark stays", |_, b, a, s| {
        if *a == Answer::Done {
            s.records[1].eof = b.records[1].eof
        }
    }),
    mutant(3, "the record before the cursor keeps its next", |_, b, a, s| {
        if *a == Answer::Done && b.prefilled > 0 {
            keep_link(s)
        }
    }),
    mutant(3, "the prefilled count is kept", |_, b, a, s| {
        if *a == Answer::Done {
            s.prefilled = b.prefilled
        }
    }),
    mutant(3, "the tally is cleared", |_, _, _, s| s.tally = 0),
    mutant(4, "the offset is not taken off", |_, b, a, _| more(a, b.offset)),
    mutant(4, "one too few", |_, _, a, _| less(a)),
    mutant(5, "lengths are counted for sizes", |_, b, a, _| {
        if let Answer::Bytes(k) = a {
            *k = lengths(b, *k)
        }
    }),
    mutant(6, "the Rust's slip on record n-1", |_, b, a, _| slip(b, a)),
    mutant(6, "one constant part", |_, _, a, _| {
        if let Answer::Part { .. } = a {
            *a = Answer::part(0, 1)
        }
    }),
    mutant(6, "a copy of the part, not the part", |_, _, a, _| {
        if let Answer::Part { at, len } = a
            && *len > 0
        {
            *at += 1 << 40
        }
    }),
    mutant(7, "the mark is always no", |_, _, a, _| {
        if let Answer::PartEof { eof, .. } = a {
            *eof = false
        }
    }),
    mutant(7, "it runs on over an EOF", |_, b, a, _| run_on(b, a)),
    mutant(8, "the returned record keeps its old next", |_, b, _, s| keep_next(b, s)),
    mutant(8, "the previous record is not linked", |_, b, _, s| keep_previous(b, s)),
    mutant(8, "an empty record stays", |_, b, a, s| {
        if let Answer::Taken { bytes: 0, back } = a
            && *back > 0
        {
            (*back, *s) = (0, b.clone())
        }
    }),
    mutant(8, "a made-up number of records back", |_, _, a, _| {
        if let Answer::Taken { back, .. } = a {
            *back += 1
        }
    }),
    mutant(8, "the tally stands still", |_, b, _, s| s.tally = b.tally),
    mutant(8, "the EOF mark stays on", |_, b, _, s| keep_marks(b, s)),
    mutant(9, "answers 0 and takes nothing", |_, b, a, s| {
        if let Answer::Bytes(_) = a {
            (*a, *s) = (Answer::Bytes(0), b.clone())
        }
    }),
    mutant(9, "a byte is read twice", |_, _, a, s| {
        if let Answer::Bytes(k @ 2..) = a {
            s.lent[*k - 1] = s.lent[*k - 2]
        }
    }),
    mutant(9, "the destination's rest is cleared", |_, _, a, s| {
        if let Answer::Bytes(k) = a {
            s.lent[*k..].fill(0)
        }
    }),
    mutant(9, "an empty record is passed over", |_, b, a, s| {
        if *a == Answer::Bytes(0) {
            pass_over(b, s)
        }
    }),
    mutant(10, "copies at the buffer's start", |_, b, a, s| {
        if let Answer::Bytes(k) = a {
            from_the_start(b, s, *k)
        }
    }),
    mutant(11, "the whole buffer is offered", |_, b, a, _| {
        if let Answer::Bytes(k) = a {
            *k = b.buffer.len()
        }
    }),
    mutant(12, "too much is kept, as in the Rust", |c, _, a, _| {
        if let (Call::CommitPrefill(k), Answer::Refused(8)) = (c, &a) {
            *a = Answer::Bytes(*k)
        }
    }),
    mutant(12, "the tally stands still", |_, b, _, s| s.tally = b.tally),
    mutant(13, "the wrap loses a byte", |c, b, a, s| lose(c, b, a, s)),
    mutant(13, "a record filled in part gets its short length", |_, _, a, s| {
        if let Answer::Bytes(1..) = a {
            short_length(s)
        }
    }),
    mutant(14, "the offer goes round the ring", |_, b, a, _| {
        if let Answer::Bytes(k) = a {
            *k = crate::rules::transmit::available(b)
        }
    }),
    mutant(15, "too much is cut, as in the Rust", |_, _, a, _| {
        if *a == Answer::Refused(8) {
            *a = Answer::Bytes(0)
        }
    }),
    mutant(15, "the buffer is cleared", |_, _, _, s| s.buffer.fill(0)),
    mutant(16, "runs on over DMA-owned records, as in the Rust", |_, _, a, s| {
        if *a == Answer::Refused(8) {
            (*a, s.offset) = (Answer::Bytes(1), 0)
        }
    }),
    mutant(16, "EOF is left off", |_, b, _, s| keep_marks(b, s)),
    mutant(16, "a whole ring ends on the wrong record", |_, b, _, s| {
        if s.cursor == b.cursor && s.gone_back(&b.records) == s.n() {
            s.cursor = (s.cursor + 1) % s.n()
        }
    }),
    mutant(17, "the device looks at the owner", |_, b, a, s| owner_first(b, a, s)),
    mutant(17, "a step of no bytes is taken", |_, _, a, _| {
        if *a == Answer::Refused(6) {
            *a = Answer::Bytes(0)
        }
    }),
    mutant(17, "a device that never moves", |_, b, _, s| s.device = b.device),
    mutant(17, "steps on after its stop", |_, _, a, _| {
        if *a == Answer::Refused(7) {
            *a = Answer::Bytes(1)
        }
    }),
    mutant(18, "the record's length is cleared", |_, b, a, s| {
        if let (Answer::Bytes(_), Device::On(i)) = (&a, b.device) {
            s.records[i].length = 0
        }
    }),
    mutant(18, "a short output is cut", |_, b, a, _| {
        if *a == Answer::Refused(5) && crate::rules::sound::sound(b) {
            *a = Answer::Bytes(b.lent.len())
        }
    }),
    mutant(18, "the output's rest is cleared", |_, _, a, s| {
        if let Answer::Bytes(k) = a {
            s.lent[*k..].fill(0)
        }
    }),
    mutant(19, "the smaller alignment holds outside", |c, _, a, _| smaller(c, a)),
    mutant(19, "the length is asked for Out too", |c, _, a, _| out_length(c, a)),
    mutant(19, "the region's end is inside", |c, _, a, _| {
        if let (Call::Align(x), Answer::Refused(9)) = (c, &a)
            && x.internal.1 == x.address as u64
        {
            *a = Answer::Done
        }
    }),
    mutant(19, "an alignment of 128 is good", |c, _, a, _| {
        if let (Call::Align(x), Answer::Refused(12)) = (c, &a)
            && x.internal_alignment == 128
        {
            *a = Answer::Done
        }
    }),
    mutant(20, "a short head does not grow", |_, _, a, _| {
        if let Answer::Cut { head: 17..=20, middle, tail } = *a {
            *a = Answer::Cut { head: 1, middle: middle + 16, tail }
        }
    }),
    mutant(20, "a range of the bounce size is cut", |_, _, a, _| {
        if let Answer::Cut { head: 16, middle: 0, tail: 0 } = a {
            *a = Answer::Cut { head: 0, middle: 16, tail: 0 }
        }
    }),
    mutant(21, "the last record's next is cleared", |_, _, a, s| {
        if let Answer::Pieces { used: used @ 1.., .. } = a {
            s.records[*used - 1].next = None
        }
    }),
    mutant(21, "the tail lies where the Rust has it", |_, _, a, s| {
        if let Answer::Pieces { used: used @ 1.., in_store, .. } = a
            && *in_store == 1 << (*used - 1)
        {
            s.records[*used - 1].start = 0
        }
    }),
    mutant(21, "a piece of 4095", |_, _, _, s| s.records.iter_mut().filter(|r| r.size == 4080).for_each(|r| r.size = 4095)),
    mutant(22, "a piece past the last is shown", |_, _, a, _| {
        if *a == Answer::Refused(8) {
            *a = Answer::Piece { in_store: false, start: 0, size: 0 }
        }
    }),
    mutant(22, "store and range are exchanged", |_, _, a, _| {
        if let Answer::Piece { in_store, .. } = a {
            *in_store = !*in_store
        }
    }),
];
