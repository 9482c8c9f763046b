//! The calls by value as a side of the timing driver: each takes the whole ring and gives it back.

use ciramohir::{DescriptorList, LIMIT};
use state::Side;

#[repr(C)]
#[derive(Clone, Copy)]
struct Ring {
    starts: [u32; LIMIT],
    cells: [u16; 5 * LIMIT],
    count: usize,
    record: usize,
    offset: usize,
    tally: u32,
    prefilled: usize,
}

#[repr(C)]
struct Answered {
    ring: Ring,
    bytes: usize,
}

// A slice is a pointer and a length.
unsafe extern "C" {
    fn value_rx_available(ring: Ring, length: usize) -> usize;
    fn value_rx_peek(ring: Ring, buffer: *const u8, length: usize) -> usize;
    fn value_rx_consume(ring: Ring, length: usize, k: usize) -> Answered;
    fn value_rx_pop(ring: Ring, buffer: *const u8, length: usize, destination: *mut u8, k: usize) -> Answered;
    fn value_tx_available(ring: Ring, length: usize) -> usize;
    fn value_tx_push(ring: Ring, buffer: *mut u8, length: usize, data: *const u8, k: usize) -> Answered;
    fn value_tx_advance(ring: Ring, length: usize, k: usize) -> Answered;
}

struct ByValue {
    rx: Ring,
    tx: Ring,
    full: Ring,
    received: Vec<u8>,
    sent: Vec<u8>,
}

pub fn side(mut open: DescriptorList, buffer: Vec<u8>) -> Box<dyn Side> {
    let count = open.count();
    let (starts, cells) = open.words_mut();
    let full = Ring { starts: *starts, cells: *cells, count, record: 0, offset: 0, tally: 0, prefilled: 0 };
    Box::new(ByValue { rx: full, tx: full, full, received: buffer.clone(), sent: buffer })
}

// SAFETY of every call below: each pointer is lent with its own length for this call.
impl Side for ByValue {
    fn name(&self) -> &'static str {
        "by value"
    }

    fn fill(&mut self) {
        self.rx = self.full;
    }

    fn clear(&mut self) {
        self.tx = self.full;
    }

    fn rx_available(&mut self) -> usize {
        unsafe { value_rx_available(self.rx, self.received.len()) }
    }

    fn tx_available(&mut self) -> usize {
        unsafe { value_tx_available(self.tx, self.sent.len()) }
    }

    fn peek(&mut self) -> usize {
        unsafe { value_rx_peek(self.rx, self.received.as_ptr(), self.received.len()) }
    }

    fn consume(&mut self, k: usize) -> usize {
        let answered = unsafe { value_rx_consume(self.rx, self.received.len(), k) };
        self.rx = answered.ring;
        answered.bytes
    }

    fn pop(&mut self, destination: &mut [u8]) -> usize {
        let (at, k) = (destination.as_mut_ptr(), destination.len());
        let answered = unsafe { value_rx_pop(self.rx, self.received.as_ptr(), self.received.len(), at, k) };
        self.rx = answered.ring;
        answered.bytes
    }

    fn push(&mut self, data: &[u8]) -> usize {
        let answered = unsafe { value_tx_push(self.tx, self.sent.as_mut_ptr(), self.sent.len(), data.as_ptr(), data.len()) };
        self.tx = answered.ring;
        answered.bytes
    }

    fn advance(&mut self, k: usize) {
        let answered = unsafe { value_tx_advance(self.tx, self.sent.len(), k) };
        assert_eq!(answered.bytes, k, "the ring has so much room");
        self.tx = answered.ring;
    }
}
