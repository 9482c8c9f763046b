//! The device of document 01, to run a ring without a chip.

use crate::ring::on_ring;
use crate::{DmaBufError, DmaRxStreamBufView, DmaTxStreamBufView};

/// Where the device stands: one word, 0 stopped, i + 1 on record i.
#[derive(Debug, PartialEq, Eq, Clone, Copy)]
pub struct Device(u64);

impl Device {
    /// It stands nowhere: every step is refused.
    pub const STOPPED: Device = Device(0);

    /// On a record. 2^64 - 1 is not storable and is stored as 2^64 - 2, which is refused all the same.
    pub const fn on(record: usize) -> Device {
        Device((record as u64).saturating_add(1))
    }

    /// The record it stands on, if any.
    pub fn record(self) -> Option<usize> {
        self.0.checked_sub(1).map(|record| record as usize)
    }

    /// Puts the bytes at the start of its record and moves on.
    pub fn receive(&mut self, view: &mut DmaRxStreamBufView, data: &[u8], eof: bool) -> Result<usize, DmaBufError> {
        let (bytes, length) = (view.ring.buffer.as_mut_ptr(), view.ring.buffer.len());
        let place = &raw mut self.0;
        let answer = on_ring!(dma_rx_step, view.ring, bytes, length, place, 1, data.as_ptr(), data.len(), eof as u32 => answer)?;
        Ok(answer[0])
    }

    /// Puts its record's bytes at the output's front and moves on.
    pub fn transmit(&mut self, view: &mut DmaTxStreamBufView, output: &mut [u8]) -> Result<usize, DmaBufError> {
        let (bytes, length) = (view.ring.buffer.as_ptr(), view.ring.buffer.len());
        let place = &raw mut self.0;
        let answer = on_ring!(dma_tx_step, view.ring, bytes, length, place, 1, output.as_mut_ptr(), output.len() => answer)?;
        Ok(answer[0])
    }
}
