//! The calls and what they answer.

use crate::State;

#[derive(Clone, Copy, PartialEq, Eq, Debug)]
pub enum Direction {
    Receive,
    Transmit,
}

#[derive(Clone, Copy, PartialEq, Eq, Debug)]
pub enum Chip {
    Ordinary,
    S2,
}

/// What the alignment check is given. Regions are half-open; their ends may reach 2^32.
#[derive(Clone, Copy, PartialEq, Eq, Debug)]
pub struct Align {
    pub address: u32,
    pub length: u32,
    pub direction: Direction,
    pub internal: (u64, u64),
    pub external: (u64, u64),
    pub internal_alignment: u32,
    pub external_alignment: u32,
}

/// A caller's range, with the kind of chip that cuts it.
#[derive(Clone, Copy, PartialEq, Eq, Debug)]
pub struct Range {
    pub address: u32,
    pub length: u32,
    pub chip: Chip,
}

#[derive(Clone, Copy, PartialEq, Eq, Debug)]
pub enum Call<'a> {
    /// Over `records` and `buffer` as they stand.
    New,
    /// `pushed` is false where nothing was ever pushed: the Rust alone tells that from a push of no bytes.
    Prepare {
        pushed: bool,
    },
    Available,
    Peek,
    PeekUntilEof,
    Consume(usize),
    /// Into `lent`, whose length is the request.
    Pop,
    Prefill(&'a [u8]),
    OfferPrefill,
    CommitPrefill(usize),
    Push(&'a [u8]),
    Offer,
    Commit(usize),
    Advance(usize),
    Fill(&'a [u8], bool),
    /// Into `lent`.
    Send,
    Align(Align),
    Cut(Range),
    /// Over `records`, with a bounce store of so many bytes.
    Pieces(Range, usize),
    /// The numbered piece of the same.
    Piece(Range, usize, usize),
}

#[derive(Clone, Copy, PartialEq, Eq, Debug)]
pub enum Answer {
    Done,
    Refused(u8),
    Bytes(usize),
    /// A part of the buffer; an empty one has no place.
    Part {
        at: usize,
        len: usize,
    },
    PartEof {
        at: usize,
        len: usize,
        eof: bool,
    },
    Taken {
        bytes: usize,
        back: usize,
    },
    Cut {
        head: usize,
        middle: usize,
        tail: usize,
    },
    /// `in_store` has a bit for each piece that lies in the bounce store.
    Pieces {
        covered: usize,
        used: usize,
        in_store: u128,
    },
    Piece {
        in_store: bool,
        start: usize,
        size: usize,
    },
    Panicked,
    NotLinked,
}

impl Answer {
    pub fn part(at: usize, len: usize) -> Answer {
        Answer::Part { at: if len == 0 { 0 } else { at }, len }
    }

    pub fn part_eof(at: usize, len: usize, eof: bool) -> Answer {
        Answer::PartEof { at: if len == 0 { 0 } else { at }, len, eof }
    }
}

/// The calls' names, in the order of `index`.
pub const NAMES: [&str; 23] = [
    "rx new",
    "tx new",
    "rx prepare",
    "tx prepare",
    "rx available_bytes",
    "tx available_bytes",
    "rx peek",
    "rx peek_until_eof",
    "rx consume",
    "rx pop",
    "tx push before prepare",
    "tx offer before prepare",
    "tx commit before prepare",
    "tx push",
    "tx offer",
    "tx commit",
    "tx advance",
    "device receive step",
    "device transmit step",
    "ensure_buffer_compatible",
    "head, middle and tail",
    "build_descriptor_list_for_psram",
    "numbered piece",
];

impl Call<'_> {
    /// The call's place in NAMES.
    pub fn index(&self, direction: Direction) -> usize {
        let transmit = (direction == Direction::Transmit) as usize;
        match self {
            Call::New => transmit,
            Call::Prepare { .. } => 2 + transmit,
            Call::Available => 4 + transmit,
            Call::Peek => 6,
            Call::PeekUntilEof => 7,
            Call::Consume(_) => 8,
            Call::Pop => 9,
            Call::Prefill(_) => 10,
            Call::OfferPrefill => 11,
            Call::CommitPrefill(_) => 12,
            Call::Push(_) => 13,
            Call::Offer => 14,
            Call::Commit(_) => 15,
            Call::Advance(_) => 16,
            Call::Fill(..) => 17,
            Call::Send => 18,
            Call::Align(_) => 19,
            Call::Cut(_) => 20,
            Call::Pieces(..) => 21,
            Call::Piece(..) => 22,
        }
    }

    /// How large the request is, to find the smallest input.
    pub fn weight(&self) -> usize {
        match self {
            Call::Consume(k) | Call::CommitPrefill(k) | Call::Commit(k) | Call::Advance(k) => *k,
            Call::Prefill(data) | Call::Push(data) | Call::Fill(data, _) => data.len(),
            Call::Align(a) => a.length as usize + a.address as usize,
            Call::Cut(r) | Call::Pieces(r, _) | Call::Piece(r, ..) => r.length as usize + r.address as usize,
            _ => 0,
        }
    }
}

/// One that can be asked. The state is changed in place, as the call changes it.
pub trait Voice {
    fn call(&mut self, call: &Call, state: &mut State) -> Answer;
}
