//! Module 2: the split of a buffer over records.

use state::{Answer, Device, Direction, State};

/// A record's limits, and the least and most records of a ring.
pub const MOST: usize = 4095;
pub const LEAST: usize = 4;
pub const LIMIT: usize = 64;

#[derive(Clone, Copy)]
pub struct Split {
    pub n: usize,
    pub chunk: usize,
    pub rest: usize,
}

impl Split {
    pub fn start(&self, i: usize) -> usize {
        i * self.chunk
    }

    pub fn size(&self, i: usize) -> usize {
        if i + 1 == self.n { self.chunk + self.rest } else { self.chunk }
    }
}

/// The checks of `new`, in their order.
pub fn split(n: usize, len: usize) -> Result<Split, u8> {
    if n < LEAST {
        return Err(1);
    }
    if n > LIMIT {
        return Err(4);
    }
    let (chunk, rest) = (len / n, len % n);
    if chunk > MOST {
        Err(1)
    } else if chunk == 0 {
        Err(2)
    } else if rest >= chunk {
        Err(3)
    } else if chunk + rest > MOST {
        Err(1)
    } else {
        Ok(Split { n, chunk, rest })
    }
}

/// Starts and sizes; for transmit every length is the chunk, the last one's too. All else stays as lent.
pub fn new(state: &mut State) -> Answer {
    let split = split(state.n(), state.buffer.len()).expect("the refusals were judged");
    for (i, record) in state.records.iter_mut().enumerate() {
        record.start = split.start(i);
        record.size = split.size(i);
        if state.direction == Direction::Transmit {
            record.length = split.chunk;
        }
    }
    (state.cursor, state.offset, state.tally, state.prefilled) = (0, 0, 0, 0);
    state.device = Device::On(0);
    Answer::Done
}
