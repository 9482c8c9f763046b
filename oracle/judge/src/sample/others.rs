//! Modules 1 and 6, and the readings of a tally.

use state::{Align, Call, Chip, Direction, Owner, Range, Record};

use super::script::Script;
use crate::rng::Rng;
use crate::states::ring;

pub fn write(script: &mut Script, rng: &Rng) {
    script.comment("alignment");
    alignment(script);
    script.comment("head, middle and tail");
    for chip in [Chip::Ordinary, Chip::S2] {
        for place in 0..16 {
            for length in [0, 1, 16, 17, 24, 25, 40, 100] {
                script.call(Call::Cut(Range { address: 4096 + place, length, chip }));
            }
        }
    }
    script.comment("pieces");
    lists(script, rng);
    script.comment("between");
    for (a, b) in [(0, 0), (5, 9), (9, 5), (u32::MAX, 0), (u32::MAX - 3, 4), (0, u32::MAX)] {
        script.ours(&format!("between {a} {b}"), &format!("between {}", b.wrapping_sub(a)));
    }
}

fn alignment(script: &mut Script) {
    let top = 1u64 << 32;
    for direction in [Direction::Receive, Direction::Transmit] {
        for (internal, external) in
            [((4096, 8192), (16384, 20480)), ((4096, 8192), (8000, 20480)), ((0, top), (0, 0)), ((0, 0), (4096, top))]
        {
            for (internal_alignment, external_alignment) in [(1, 1), (4, 16), (16, 4), (64, 32), (0, 4), (4, 3), (128, 1)] {
                for (address, length) in [(4096, 64), (4100, 8), (8188, 8), (8000, 10), (16384, 33), (0, 0), (u32::MAX, 1), (u32::MAX, 2)] {
                    let asked = Align { address, length, direction, internal, external, internal_alignment, external_alignment };
                    script.call(Call::Align(asked));
                }
            }
        }
    }
}

/// Over a ring of eight records, so that `show` tells what the list left in them.
fn lists(script: &mut Script, rng: &Rng) {
    for chip in [Chip::Ordinary, Chip::S2] {
        for address in [4096, 4097, 4109, 4111] {
            for length in [0, 15, 16, 17, 24, 25, 100, 4080, 4096, 4110, 8170, 12272] {
                let n = rng.pick(&[8, 8, 8, 0, 1, 2, 3]);
                list(script, n, Range { address, length, chip }, 48);
            }
        }
        let range = Range { address: u32::MAX - 30, length: 31, chip };
        for (n, length, store) in
            [(8, 31, 48), (8, 32, 48), (8, 100, 31), (8, 100, 32), (8, 32, 10), (65, 33, 10), (65, 10, 48), (64, 31, 48)]
        {
            list(script, n, Range { length, ..range }, store);
        }
    }
}

fn list(script: &mut Script, n: usize, range: Range, store: usize) {
    let mut eight = ring(Direction::Receive, 8, 64);
    eight.buffer.fill(0);
    for (i, record) in eight.records.iter_mut().enumerate() {
        *record = Record { start: 1, size: 2, length: i, eof: i % 2 == 1, owner: Owner::Dma, next: Some(0) };
    }
    script.set_up(&eight);
    script.ring.records.resize(n, Record::EMPTY);
    script.call(Call::Pieces(range, store));
    for (shown, written) in eight.records.iter_mut().zip(&script.ring.records) {
        *shown = *written;
    }
    script.ring = eight;
    script.show();
}
