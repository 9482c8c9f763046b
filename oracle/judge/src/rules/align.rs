//! Module 1: the alignment check.

use state::{Align, Direction};

fn good(alignment: u32) -> bool {
    alignment.count_ones() == 1 && alignment <= 64
}

pub fn refusal(a: &Align) -> Option<u8> {
    if !good(a.internal_alignment) || !good(a.external_alignment) {
        return Some(12);
    }
    placed(a)
}

/// The check without refusal 12.
pub fn placed(a: &Align) -> Option<u8> {
    let (address, end) = (a.address as u64, a.address as u64 + a.length as u64);
    if a.length == 0 {
        return None;
    }
    let inside = |(low, high): (u64, u64)| low <= address && address < high && end <= high;
    if end > 1 << 32 || !(inside(a.internal) || inside(a.external)) {
        return Some(9);
    }
    let alignment = effective(a);
    if !a.address.is_multiple_of(alignment) {
        return Some(10);
    }
    (a.direction == Direction::Receive && !a.length.is_multiple_of(alignment)).then_some(11)
}

/// The larger alignment holds where the address is external.
pub fn effective(a: &Align) -> u32 {
    let external = a.external.0 <= a.address as u64 && (a.address as u64) < a.external.1;
    if external { a.internal_alignment.max(a.external_alignment) } else { a.internal_alignment }
}
