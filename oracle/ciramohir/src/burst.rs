//! The alignment check.

use core::ops::Range;

use crate::{DmaBufError, error, library};

/// Which way the bytes go.
#[derive(Debug, PartialEq, Eq, Clone, Copy)]
pub enum TransferDirection {
    /// Into memory: receive.
    In,
    /// Out of memory: transmit.
    Out,
}

/// The chip's two regions and their alignments. A caller passes 1 as the external alignment for Out, as the original
/// does by itself.
#[derive(Debug, PartialEq, Eq, Clone)]
pub struct Regions {
    /// The addresses of internal memory.
    pub internal: Range<u64>,
    /// The addresses of external memory.
    pub external: Range<u64>,
    /// What an address and a length in internal memory must be multiples of.
    pub internal_alignment: u32,
    /// The same for external memory.
    pub external_alignment: u32,
}

/// Whether a device may use the buffer: it lies in a region, aligned as that region asks.
pub fn ensure_buffer_compatible(regions: &Regions, address: u32, length: u32, direction: TransferDirection) -> Result<(), DmaBufError> {
    let (internal, external) = (&regions.internal, &regions.external);
    let way = (direction == TransferDirection::Out) as u32;
    // SAFETY: numbers only.
    error::done(unsafe {
        library::dma_ensure_buffer_compatible(
            address,
            length,
            way,
            internal.start,
            internal.end,
            external.start,
            external.end,
            regions.internal_alignment,
            regions.external_alignment,
        )
    })
}
