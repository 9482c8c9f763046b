//! One ring, its lent slices and the device, as plain values.

use crate::Direction;

#[derive(Clone, Copy, PartialEq, Eq, Debug)]
pub enum Owner {
    Cpu,
    Dma,
}

#[derive(Clone, Copy, PartialEq, Eq, Debug)]
pub enum Device {
    On(usize),
    Stopped,
}

#[derive(Clone, Copy, PartialEq, Eq, Debug)]
pub struct Record {
    pub start: usize,
    pub size: usize,
    pub length: usize,
    pub eof: bool,
    pub owner: Owner,
    pub next: Option<usize>,
}

impl Record {
    pub const EMPTY: Record = Record { start: 0, size: 0, length: 0, eof: false, owner: Owner::Cpu, next: None };
}

/// `lent` is the slice that a call writes besides the ring: pop's destination, the output of a transmit step.
#[derive(Clone, PartialEq, Eq, Debug)]
pub struct State {
    pub direction: Direction,
    pub records: Vec<Record>,
    pub buffer: Vec<u8>,
    pub cursor: usize,
    pub offset: usize,
    pub tally: u32,
    pub prefilled: usize,
    pub device: Device,
    pub lent: Vec<u8>,
}

impl State {
    /// Empty records and a zero buffer, as a console begins: no split yet.
    pub fn blank(direction: Direction, n: usize, len: usize) -> State {
        State {
            direction,
            records: vec![Record::EMPTY; n],
            buffer: vec![0; len],
            cursor: 0,
            offset: 0,
            tally: 0,
            prefilled: 0,
            device: Device::On(0),
            lent: Vec::new(),
        }
    }

    pub fn n(&self) -> usize {
        self.records.len()
    }

    /// A copy into this state's own storage: the runs make millions of them.
    pub fn copy_from(&mut self, other: &State) {
        self.direction = other.direction;
        self.records.clone_from(&other.records);
        self.buffer.clone_from(&other.buffer);
        self.cursor = other.cursor;
        self.offset = other.offset;
        self.tally = other.tally;
        self.prefilled = other.prefilled;
        self.device = other.device;
        self.lent.clone_from(&other.lent);
    }

    /// The records that `before` shows with the CPU and this state with the DMA.
    pub fn gone_back(&self, before: &[Record]) -> usize {
        let went = |(old, new): &(&Record, &Record)| old.owner == Owner::Cpu && new.owner == Owner::Dma;
        before.iter().zip(&self.records).filter(went).count()
    }
}
