//! The proved rings behind esp-hal's own type and method names.
//!
//! Each call goes to the static library of the proved code, in place on lent words, and answers a refusal where
//! the original would panic or go on. Until that library is linked every call answers `NotLinked`.
#![no_std]
#![warn(missing_docs)]

mod burst;
mod device;
mod error;
pub mod library;
mod list;
mod psram;
mod ring;
mod rx_stream;
mod tx_stream;

pub use burst::{Regions, TransferDirection, ensure_buffer_compatible};
pub use device::Device;
pub use error::{DmaAlignmentError, DmaBufError};
pub use library::LINKED;
pub use list::{DescriptorList, DmaDescriptor, LIMIT, Owner};
pub use psram::{Chip, Covered, Cut, Piece, build_descriptor_list_for_psram, head_middle_tail, piece};
pub use ring::Head;
pub use rx_stream::{DmaRxStreamBuf, DmaRxStreamBufView};
pub use tx_stream::{DmaTxStreamBuf, DmaTxStreamBufView};

/// The bytes between two readings of a tally, round at 2^32: in plain Rust; the proved one is descriptors::ring::between.
pub fn bytes_between(earlier: u32, later: u32) -> u32 {
    later.wrapping_sub(earlier)
}
