//! The lent list of descriptors, in the library's layout.

/// The most records of a list.
pub const LIMIT: usize = 64;

/// Who may touch a descriptor and its bytes.
#[derive(Debug, PartialEq, Eq, Clone, Copy)]
pub enum Owner {
    /// The firmware.
    Cpu,
    /// The device.
    Dma,
}

/// One descriptor as a plain record. `buffer` is counted from the buffer's start, `next` is a record's number.
#[derive(Debug, PartialEq, Eq, Clone, Copy)]
pub struct DmaDescriptor {
    /// Where its part of the buffer starts.
    pub buffer: u32,
    /// How many bytes that part has.
    pub size: u16,
    /// How many of them hold data.
    pub length: u16,
    /// Whether the data ends a frame.
    pub suc_eof: bool,
    /// Who may touch it.
    pub owner: Owner,
    /// The record that the device goes on to: at most 65534, for 65535 is not storable and is stored as 65534.
    pub next: Option<u16>,
}

impl DmaDescriptor {
    /// Nothing in it, the CPU's, and no next.
    pub const EMPTY: Self = Self { buffer: 0, size: 0, length: 0, suc_eof: false, owner: Owner::Cpu, next: None };
}

/// Starts apart; then five blocks of cells: size, length, next + 1 with 0 for none, owner (1 is DMA), EOF.
#[derive(Debug, PartialEq, Eq, Clone)]
pub struct DescriptorList {
    pub(crate) count: usize,
    pub(crate) starts: [u32; LIMIT],
    pub(crate) cells: [u16; 5 * LIMIT],
}

const SIZE: usize = 0;
const LENGTH: usize = LIMIT;
const NEXT: usize = 2 * LIMIT;
const OWNER: usize = 3 * LIMIT;
const EOF: usize = 4 * LIMIT;

impl DescriptorList {
    /// So many empty descriptors. A count above LIMIT is kept and refused by the calls.
    pub const fn new(count: usize) -> Self {
        Self { count, starts: [0; LIMIT], cells: [0; 5 * LIMIT] }
    }

    /// How many descriptors it has.
    pub fn count(&self) -> usize {
        self.count
    }

    /// The words themselves: starts, and the five blocks of cells.
    pub fn words_mut(&mut self) -> (&mut [u32; LIMIT], &mut [u16; 5 * LIMIT]) {
        (&mut self.starts, &mut self.cells)
    }

    /// Descriptor `i`. Panics where i >= LIMIT.
    pub fn get(&self, i: usize) -> DmaDescriptor {
        DmaDescriptor {
            buffer: self.starts[i],
            size: self.cells[SIZE + i],
            length: self.cells[LENGTH + i],
            suc_eof: self.cells[EOF + i] != 0,
            owner: if self.cells[OWNER + i] == 0 { Owner::Cpu } else { Owner::Dma },
            next: self.cells[NEXT + i].checked_sub(1),
        }
    }

    /// Writes descriptor `i`. Panics where i >= LIMIT.
    pub fn set(&mut self, i: usize, descriptor: DmaDescriptor) {
        self.starts[i] = descriptor.buffer;
        self.cells[SIZE + i] = descriptor.size;
        self.cells[LENGTH + i] = descriptor.length;
        self.cells[NEXT + i] = descriptor.next.map_or(0, |next| next.saturating_add(1));
        self.cells[OWNER + i] = (descriptor.owner == Owner::Dma) as u16;
        self.cells[EOF + i] = descriptor.suc_eof as u16;
    }
}
