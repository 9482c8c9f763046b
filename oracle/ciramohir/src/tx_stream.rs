//! The transmit ring.

use crate::ring::{Ring, on_ring};
use crate::{DescriptorList, DmaBufError, Head};

/// DMA streaming transmit buffer.
#[derive(Debug)]
pub struct DmaTxStreamBuf<'a> {
    ring: Ring<'a>,
}

impl<'a> DmaTxStreamBuf<'a> {
    /// Distributes the buffer evenly between the descriptors; the last one gets the excess.
    pub fn new(descriptors: &'a mut DescriptorList, buffer: &'a mut [u8]) -> Result<Self, DmaBufError> {
        let mut ring = Ring::new(descriptors, buffer);
        let (count, length) = (ring.list.count, ring.buffer.len());
        on_ring!(dma_tx_new, ring, count, length)?;
        Ok(DmaTxStreamBuf { ring })
    }

    /// Any state, sound or not.
    pub fn from_parts(descriptors: &'a mut DescriptorList, buffer: &'a mut [u8], head: Head) -> Self {
        DmaTxStreamBuf { ring: Ring::with_head(descriptors, buffer, head) }
    }

    /// The ring's small numbers.
    pub fn head(&self) -> Head {
        self.ring.head()
    }

    /// The descriptors.
    pub fn descriptors(&self) -> &DescriptorList {
        self.ring.list
    }

    /// Copies behind the bytes pushed so far. Answers the bytes accepted.
    pub fn push(&mut self, data: &[u8]) -> Result<usize, DmaBufError> {
        let (bytes, length) = (self.ring.buffer.as_mut_ptr(), self.ring.buffer.len());
        Ok(on_ring!(dma_tx_prefill, self.ring, bytes, length, data.as_ptr(), data.len() => answer)?[0])
    }

    /// Lets `f` write behind the bytes pushed so far; it answers how many it wrote.
    pub fn push_with(&mut self, f: impl FnOnce(&mut [u8]) -> usize) -> Result<usize, DmaBufError> {
        let count = f(self.offer()?);
        self.commit(count)
    }

    /// The part behind the bytes pushed so far.
    pub fn offer(&mut self) -> Result<&mut [u8], DmaBufError> {
        let length = self.ring.buffer.len();
        let [at, len, _] = on_ring!(dma_tx_offer_prefill, self.ring, length => answer)?;
        Ok(&mut self.ring.buffer[at..at + len])
    }

    /// Accepts the first `count` bytes of that part.
    pub fn commit(&mut self, count: usize) -> Result<usize, DmaBufError> {
        let length = self.ring.buffer.len();
        Ok(on_ring!(dma_tx_commit_prefill, self.ring, length, count => answer)?[0])
    }

    /// Links the descriptors and gives the pushed bytes to the DMA.
    pub fn prepare(&mut self) -> Result<(), DmaBufError> {
        let length = self.ring.buffer.len();
        on_ring!(dma_tx_prepare, self.ring, length)
    }

    /// The view of a transfer: it keeps the cursor, as in the original.
    pub fn into_view(self) -> DmaTxStreamBufView<'a> {
        DmaTxStreamBufView { ring: self.ring }
    }

    /// The buffer again, once the transfer is over.
    pub fn from_view(view: DmaTxStreamBufView<'a>) -> Self {
        DmaTxStreamBuf { ring: view.ring }
    }

    /// The descriptors and the buffer again.
    pub fn split(self) -> (&'a mut DescriptorList, &'a mut [u8]) {
        (self.ring.list, self.ring.buffer)
    }
}

/// A view into a [DmaTxStreamBuf] while the device sends it.
#[derive(Debug)]
pub struct DmaTxStreamBufView<'a> {
    pub(crate) ring: Ring<'a>,
}

impl<'a> DmaTxStreamBufView<'a> {
    /// Any state, sound or not: an unsound one is refused by every call.
    pub fn from_parts(descriptors: &'a mut DescriptorList, buffer: &'a mut [u8], head: Head) -> Self {
        DmaTxStreamBufView { ring: Ring::with_head(descriptors, buffer, head) }
    }

    /// Any words at all, with the head's five as the library reads them.
    pub fn from_words(descriptors: &'a mut DescriptorList, buffer: &'a mut [u8], head: [u64; 5]) -> Self {
        DmaTxStreamBufView { ring: Ring::with_words(descriptors, buffer, head) }
    }

    /// The head's five words: count, record, offset, tally, prefilled.
    pub fn head_words(&self) -> [u64; 5] {
        self.ring.head
    }

    /// The ring's small numbers.
    pub fn head(&self) -> Head {
        self.ring.head()
    }

    /// The bytes that can be written.
    pub fn available_bytes(&mut self) -> Result<usize, DmaBufError> {
        let length = self.ring.buffer.len();
        Ok(on_ring!(dma_tx_available_bytes, self.ring, length => answer)?[0])
    }

    /// Copies in as much as fits. Answers the bytes accepted.
    pub fn push(&mut self, data: &[u8]) -> Result<usize, DmaBufError> {
        let (bytes, length) = (self.ring.buffer.as_mut_ptr(), self.ring.buffer.len());
        Ok(on_ring!(dma_tx_push, self.ring, bytes, length, data.as_ptr(), data.len() => answer)?[0])
    }

    /// Lets `f` write into the part on offer; it answers how many bytes it wrote.
    pub fn push_with(&mut self, f: impl FnOnce(&mut [u8]) -> usize) -> Result<usize, DmaBufError> {
        let count = f(self.offer()?);
        self.commit(count)
    }

    /// The part on offer: from the cursor to the buffer's end at most.
    pub fn offer(&mut self) -> Result<&mut [u8], DmaBufError> {
        let length = self.ring.buffer.len();
        let [at, len, _] = on_ring!(dma_tx_offer, self.ring, length => answer)?;
        Ok(&mut self.ring.buffer[at..at + len])
    }

    /// Accepts the first `count` bytes of that part.
    pub fn commit(&mut self, count: usize) -> Result<usize, DmaBufError> {
        let length = self.ring.buffer.len();
        Ok(on_ring!(dma_tx_commit, self.ring, length, count => answer)?[0])
    }

    /// Accepts the `count` bytes that stand behind the cursor.
    pub fn advance(&mut self, count: usize) -> Result<usize, DmaBufError> {
        let length = self.ring.buffer.len();
        Ok(on_ring!(dma_tx_advance, self.ring, length, count => answer)?[0])
    }
}
