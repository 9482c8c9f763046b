//! The two memory regions, settable for each question.
//!
//! An address of the chip is shown to the text moved up by a base, and so are the regions: the text then sees no null
//! pointer, and a range past 2^32 does not come round. The base is a multiple of both alignments, so no remainder moves.

use core::cell::Cell;
use core::ops::Range;

pub const BASE: usize = 1 << 40;

thread_local! {
    static REGIONS: Cell<[usize; 4]> = const { Cell::new([0; 4]) };
}

pub fn base_for(alignments: (u32, u32)) -> usize {
    let both = (alignments.0 as usize).max(1) * (alignments.1 as usize).max(1);
    BASE.next_multiple_of(both)
}

pub fn set(base: usize, internal: (u64, u64), external: (u64, u64)) {
    let at = |address: u64| base + address as usize;
    REGIONS.set([at(internal.0), at(internal.1), at(external.0), at(external.1)]);
}

pub fn internal() -> Range<usize> {
    let [start, end, _, _] = REGIONS.get();
    start..end
}

pub mod psram {
    use core::ops::Range;

    pub fn psram_range() -> Range<usize> {
        let [_, _, start, end] = super::REGIONS.get();
        start..end
    }
}
