//! The refusals, with the original's names where it has them.

/// What is not aligned.
#[derive(Debug, PartialEq, Eq, Hash, Clone, Copy)]
pub enum DmaAlignmentError {
    /// The buffer's address.
    Address,
    /// The buffer's length.
    Size,
}

/// Why a call was refused. A refused call changes nothing.
#[derive(Debug, PartialEq, Eq, Hash, Clone, Copy)]
pub enum DmaBufError {
    /// 1: fewer than 4 descriptors, or a size above 4095.
    InsufficientDescriptors,
    /// 2: a chunk of 0 bytes.
    InvalidChunkSize,
    /// 3: the rest is not below the chunk.
    UnevenSplit,
    /// 4: more than 64 descriptors.
    TooManyDescriptors,
    /// 5: the ring is not sound, or what is lent is too short.
    BadState,
    /// 6: a receive step of 0 or more than size bytes.
    BadStep,
    /// 7: a step after the device stopped.
    Stopped,
    /// 8: advance, commit or a piece's number too large.
    TooMuch,
    /// 9: in neither region, or past 2^32.
    UnsupportedMemoryRegion,
    /// 10 and 11: the address or the length is not aligned.
    InvalidAlignment(DmaAlignmentError),
    /// 12: an alignment without exactly one set bit, or above 64.
    BadAlignment,
    /// The static library is not linked, or answered a number that it does not have.
    NotLinked,
}

const NUMBERED: [DmaBufError; 12] = [
    DmaBufError::InsufficientDescriptors,
    DmaBufError::InvalidChunkSize,
    DmaBufError::UnevenSplit,
    DmaBufError::TooManyDescriptors,
    DmaBufError::BadState,
    DmaBufError::BadStep,
    DmaBufError::Stopped,
    DmaBufError::TooMuch,
    DmaBufError::UnsupportedMemoryRegion,
    DmaBufError::InvalidAlignment(DmaAlignmentError::Address),
    DmaBufError::InvalidAlignment(DmaAlignmentError::Size),
    DmaBufError::BadAlignment,
];

impl DmaBufError {
    /// The number that document 01 gives it; 0 for `NotLinked`.
    pub fn number(self) -> u8 {
        NUMBERED.iter().position(|error| *error == self).map_or(0, |place| place as u8 + 1)
    }
}

pub(crate) fn done(number: u32) -> Result<(), DmaBufError> {
    match number {
        0 => Ok(()),
        1..=12 => Err(NUMBERED[number as usize - 1]),
        _ => Err(DmaBufError::NotLinked),
    }
}
