//! The unaligned head and tail of a range in external memory.

use crate::{DescriptorList, DmaBufError, error, library};

/// The chips differ in the fewest bytes moved at an end of a range, and in the size of the bounce store.
#[derive(Debug, PartialEq, Eq, Clone, Copy)]
pub enum Chip {
    /// Every other chip.
    Ordinary,
    /// The ESP32-S2.
    S2,
}

/// The three parts of a range, in bytes.
#[derive(Debug, PartialEq, Eq, Clone, Copy)]
pub struct Cut {
    /// Before the first aligned address: bounced.
    pub head: usize,
    /// The aligned part: in place.
    pub middle: usize,
    /// Behind the last aligned address: bounced.
    pub tail: usize,
}

/// The bytes that the list covers and the records that it uses.
#[derive(Debug, PartialEq, Eq, Clone, Copy)]
pub struct Covered {
    /// The bytes of the range that its pieces hold.
    pub bytes: usize,
    /// The records that it took.
    pub records: usize,
}

/// A piece lies in the bounce store or in the caller's range; `start` is counted from that one's start.
#[derive(Debug, PartialEq, Eq, Clone, Copy)]
pub struct Piece {
    /// In the bounce store, else in the range.
    pub in_store: bool,
    /// Where it starts.
    pub start: usize,
    /// How many bytes it has.
    pub size: usize,
}

/// Cuts a range into head, middle and tail.
pub fn head_middle_tail(address: u32, length: u32, chip: Chip) -> Result<Cut, DmaBufError> {
    let mut answer = [0u64; 3];
    // SAFETY: the answer is lent with its length.
    error::done(unsafe { library::dma_head_middle_tail(address, length, chip as u32, answer.as_mut_ptr(), answer.len()) })?;
    let [head, middle, tail] = answer.map(|word| word as usize);
    Ok(Cut { head, middle, tail })
}

/// Writes the list of pieces of a range over the descriptors: head and tail in the bounce store, the middle in place.
pub fn build_descriptor_list_for_psram(
    descriptors: &mut DescriptorList,
    address: u32,
    length: u32,
    chip: Chip,
    store_length: usize,
) -> Result<Covered, DmaBufError> {
    let mut answer = [0u64; 3];
    let count = descriptors.count;
    let (starts, cells) = (&mut descriptors.starts, &mut descriptors.cells);
    // SAFETY: every pointer is lent with its own length.
    error::done(unsafe {
        library::dma_build_descriptor_list_for_psram(
            starts.as_mut_ptr(),
            starts.len(),
            cells.as_mut_ptr(),
            cells.len(),
            count,
            address,
            length,
            chip as u32,
            store_length,
            answer.as_mut_ptr(),
            answer.len(),
        )
    })?;
    Ok(Covered { bytes: answer[0] as usize, records: answer[1] as usize })
}

/// The numbered piece of the list that `count` records hold.
pub fn piece(count: usize, address: u32, length: u32, chip: Chip, store_length: usize, number: usize) -> Result<Piece, DmaBufError> {
    let mut answer = [0u64; 3];
    // SAFETY: the answer is lent with its length.
    error::done(unsafe {
        library::dma_piece(count, address, length, chip as u32, store_length, number, answer.as_mut_ptr(), answer.len())
    })?;
    let [holder, start, size] = answer.map(|word| word as usize);
    Ok(Piece { in_store: holder == 0, start, size })
}
