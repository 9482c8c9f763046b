//! What both directions hold: head, list and buffer, and the one way to call the library on them.

use crate::DescriptorList;

/// A ring's small numbers.
#[derive(Debug, PartialEq, Eq, Clone, Copy, Default)]
pub struct Head {
    /// The ring's records.
    pub count: usize,
    /// The cursor's record.
    pub descriptor_idx: usize,
    /// The cursor's place in it.
    pub descriptor_offset: usize,
    /// The bytes taken or accepted so far, round at 2^32.
    pub tally: u32,
    /// The bytes pushed before `prepare`.
    pub pre_filled: usize,
}

#[derive(Debug)]
pub(crate) struct Ring<'a> {
    pub head: [u64; 5],
    pub list: &'a mut DescriptorList,
    pub buffer: &'a mut [u8],
}

impl<'a> Ring<'a> {
    pub fn new(list: &'a mut DescriptorList, buffer: &'a mut [u8]) -> Self {
        Ring { head: [0; 5], list, buffer }
    }

    pub fn with_head(list: &'a mut DescriptorList, buffer: &'a mut [u8], head: Head) -> Self {
        let Head { count, descriptor_idx, descriptor_offset, tally, pre_filled } = head;
        let head = [count as u64, descriptor_idx as u64, descriptor_offset as u64, tally as u64, pre_filled as u64];
        Ring { head, list, buffer }
    }

    pub fn with_words(list: &'a mut DescriptorList, buffer: &'a mut [u8], head: [u64; 5]) -> Self {
        Ring { head, list, buffer }
    }

    pub fn head(&self) -> Head {
        let [count, idx, offset, tally, pre_filled] = self.head;
        Head {
            count: count as usize,
            descriptor_idx: idx as usize,
            descriptor_offset: offset as usize,
            tally: tally as u32,
            pre_filled: pre_filled as usize,
        }
    }
}

/// One call on a ring's three slices and what more it takes. With `=>` it also lends an answer and gives it back.
macro_rules! on_ring {
    ($name:ident, $ring:expr $(, $more:expr)* => answer) => {{
        let ring = &mut $ring;
        let mut answer = [0u64; 3];
        // SAFETY: every pointer is lent with its own length for this call.
        let number = unsafe {
            $crate::library::$name(
                ring.head.as_mut_ptr(), ring.head.len(),
                ring.list.starts.as_mut_ptr(), ring.list.starts.len(),
                ring.list.cells.as_mut_ptr(), ring.list.cells.len(),
                $($more,)*
                answer.as_mut_ptr(), answer.len(),
            )
        };
        $crate::error::done(number).map(|()| answer.map(|word| word as usize))
    }};
    ($name:ident, $ring:expr $(, $more:expr)*) => {{
        let ring = &mut $ring;
        // SAFETY: every pointer is lent with its own length for this call.
        let number = unsafe {
            $crate::library::$name(
                ring.head.as_mut_ptr(), ring.head.len(),
                ring.list.starts.as_mut_ptr(), ring.list.starts.len(),
                ring.list.cells.as_mut_ptr(), ring.list.cells.len(),
                $($more,)*
            )
        };
        $crate::error::done(number)
    }};
}

pub(crate) use on_ring;
