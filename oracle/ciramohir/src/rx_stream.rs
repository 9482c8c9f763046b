//! The receive ring.

use crate::ring::{Ring, on_ring};
use crate::{DescriptorList, DmaBufError, Head};

/// DMA streaming receive buffer.
#[derive(Debug)]
pub struct DmaRxStreamBuf<'a> {
    ring: Ring<'a>,
}

impl<'a> DmaRxStreamBuf<'a> {
    /// Distributes the buffer evenly between the descriptors; the last one gets the excess.
    pub fn new(descriptors: &'a mut DescriptorList, buffer: &'a mut [u8]) -> Result<Self, DmaBufError> {
        let mut ring = Ring::new(descriptors, buffer);
        let (count, length) = (ring.list.count, ring.buffer.len());
        on_ring!(dma_rx_new, ring, count, length)?;
        Ok(DmaRxStreamBuf { ring })
    }

    /// Any state, sound or not.
    pub fn from_parts(descriptors: &'a mut DescriptorList, buffer: &'a mut [u8], head: Head) -> Self {
        DmaRxStreamBuf { ring: Ring::with_head(descriptors, buffer, head) }
    }

    /// The ring's small numbers.
    pub fn head(&self) -> Head {
        self.ring.head()
    }

    /// The descriptors.
    pub fn descriptors(&self) -> &DescriptorList {
        self.ring.list
    }

    /// Links the descriptors in a line and gives all to the DMA.
    pub fn prepare(&mut self) -> Result<(), DmaBufError> {
        let length = self.ring.buffer.len();
        on_ring!(dma_rx_prepare, self.ring, length)
    }

    /// The view of a transfer: the cursor is (0,0), as in the original.
    pub fn into_view(self) -> DmaRxStreamBufView<'a> {
        let mut ring = self.ring;
        (ring.head[1], ring.head[2]) = (0, 0);
        DmaRxStreamBufView { ring }
    }

    /// The buffer again, once the transfer is over.
    pub fn from_view(view: DmaRxStreamBufView<'a>) -> Self {
        DmaRxStreamBuf { ring: view.ring }
    }

    /// The descriptors and the buffer again.
    pub fn split(self) -> (&'a mut DescriptorList, &'a mut [u8]) {
        (self.ring.list, self.ring.buffer)
    }
}

/// A view into a [DmaRxStreamBuf] while the device fills it.
#[derive(Debug)]
pub struct DmaRxStreamBufView<'a> {
    pub(crate) ring: Ring<'a>,
}

impl<'a> DmaRxStreamBufView<'a> {
    /// Any state, sound or not: an unsound one is refused by every call.
    pub fn from_parts(descriptors: &'a mut DescriptorList, buffer: &'a mut [u8], head: Head) -> Self {
        DmaRxStreamBufView { ring: Ring::with_head(descriptors, buffer, head) }
    }

    /// Any words at all, with the head's five as the library reads them.
    pub fn from_words(descriptors: &'a mut DescriptorList, buffer: &'a mut [u8], head: [u64; 5]) -> Self {
        DmaRxStreamBufView { ring: Ring::with_words(descriptors, buffer, head) }
    }

    /// The head's five words: count, record, offset, tally, prefilled.
    pub fn head_words(&self) -> [u64; 5] {
        self.ring.head
    }

    /// The ring's small numbers.
    pub fn head(&self) -> Head {
        self.ring.head()
    }

    /// The bytes that can be read.
    pub fn available_bytes(&mut self) -> Result<usize, DmaBufError> {
        let length = self.ring.buffer.len();
        Ok(on_ring!(dma_rx_available_bytes, self.ring, length => answer)?[0])
    }

    /// The longest part of the buffer in one piece that can be read.
    pub fn peek(&mut self) -> Result<&[u8], DmaBufError> {
        let length = self.ring.buffer.len();
        let [at, len, _] = on_ring!(dma_rx_peek, self.ring, length => answer)?;
        Ok(&self.ring.buffer[at..at + len])
    }

    /// Same, ending with the first EOF; also whether it does.
    pub fn peek_until_eof(&mut self) -> Result<(&[u8], bool), DmaBufError> {
        let length = self.ring.buffer.len();
        let [at, len, eof] = on_ring!(dma_rx_peek_until_eof, self.ring, length => answer)?;
        Ok((&self.ring.buffer[at..at + len], eof != 0))
    }

    /// Takes up to `n` bytes and gives the records used up back to the DMA. Answers the bytes taken.
    pub fn consume(&mut self, n: usize) -> Result<usize, DmaBufError> {
        Ok(self.consume_counting(n)?.0)
    }

    /// Same; also the records gone back.
    pub fn consume_counting(&mut self, n: usize) -> Result<(usize, usize), DmaBufError> {
        let length = self.ring.buffer.len();
        let [taken, back, _] = on_ring!(dma_rx_consume, self.ring, length, n => answer)?;
        Ok((taken, back))
    }

    /// Reads as much as there is, up to the destination's length.
    pub fn pop(&mut self, buf: &mut [u8]) -> Result<usize, DmaBufError> {
        let (bytes, length) = (self.ring.buffer.as_ptr(), self.ring.buffer.len());
        Ok(on_ring!(dma_rx_pop, self.ring, bytes, length, buf.as_mut_ptr(), buf.len() => answer)?[0])
    }
}
