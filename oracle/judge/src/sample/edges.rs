//! Document 01's worked examples and edges found by running the Rust.

use state::{Call, Device, Direction, Owner, State};

use super::script::Script;
use crate::states::ring;

pub fn write(script: &mut Script) {
    script.comment("document 01: received on D");
    received(script);
    script.comment("document 01: sent on D");
    for prefill in 0..=14 {
        sent(script, prefill);
    }
    script.comment("edges found by running the Rust");
    empty_records(script);
    whole_ring(script);
    marks(script);
    second_prepare(script);
    after_a_stop(script);
    unsound_by_a_step(script);
    offsets_at_length(script);
}

/// A ring of D's shape whose records have these lengths, CPU-owned.
fn with_lengths(lengths: [usize; 4]) -> State {
    let mut d = ring(Direction::Receive, 4, 14);
    for (record, length) in d.records.iter_mut().zip(lengths) {
        record.length = length;
    }
    d
}

fn fresh(script: &mut Script, direction: Direction) {
    script.set_up(&ring(direction, 4, 14));
    script.call(Call::New);
}

fn received(script: &mut Script) {
    fresh(script, Direction::Receive);
    script.call(Call::Prepare { pushed: true });
    script.call(Call::Fill(&[1, 2, 3], false));
    script.call(Call::Fill(&[4, 5], true));
    for call in [Call::Available, Call::Peek, Call::PeekUntilEof] {
        script.call(call);
    }
    script.pop(4);
    script.show();
    script.pop(4);
    script.show();
    script.call(Call::Fill(&[6, 7, 8], false));
    script.call(Call::Fill(&[9, 10, 11, 12, 13], false));
    script.pop(5);
    script.call(Call::Peek);
    script.call(Call::PeekUntilEof);
    script.show();
    script.pop(9);
    script.show();
}

fn sent(script: &mut Script, prefill: usize) {
    let data: Vec<u8> = (1..=30).collect();
    fresh(script, Direction::Transmit);
    script.call(Call::Prefill(&data[..prefill]));
    script.call(Call::OfferPrefill);
    script.call(Call::Prepare { pushed: true });
    script.show();
    for call in [Call::Available, Call::Offer, Call::Push(&data[15..20])] {
        script.call(call);
    }
    script.show();
    for _ in 0..4 {
        script.send(4095);
    }
    script.show();
}

fn empty_records(script: &mut Script) {
    for lengths in [[0, 3, 0, 0], [0, 0, 2, 5], [3, 0, 3, 0], [0, 0, 0, 0], [3, 3, 0, 5]] {
        for k in 0..=6 {
            script.set_up(&with_lengths(lengths));
            for call in [Call::Available, Call::Peek, Call::PeekUntilEof] {
                script.call(call);
            }
            script.pop(k);
            script.show();
            script.call(Call::Consume(k));
            script.show();
        }
    }
}

fn whole_ring(script: &mut Script) {
    for cursor in 0..4 {
        for k in [12, 13, 14, 99] {
            let mut d = with_lengths([3, 3, 3, 5]);
            (d.cursor, d.offset, d.tally) = (cursor, 1, u32::MAX - 2);
            script.set_up(&d);
            script.call(Call::Consume(k));
            script.show();
            script.set_up(&d);
            script.pop(k);
            script.show();
            d.direction = Direction::Transmit;
            script.set_up(&d);
            script.call(Call::Advance(k));
            script.show();
        }
    }
}

/// EOF on a short, an empty, a full record, at every place; the run cut at n-1.
fn marks(script: &mut Script) {
    for marked in 0..4 {
        for lengths in [[3, 3, 3, 5], [3, 2, 3, 5], [3, 3, 0, 5], [1, 3, 3, 4]] {
            let mut d = with_lengths(lengths);
            d.records[marked].eof = true;
            for cursor in 0..4 {
                d.cursor = cursor;
                script.set_up(&d);
                script.call(Call::PeekUntilEof);
                script.call(Call::Peek);
            }
        }
    }
}

fn second_prepare(script: &mut Script) {
    fresh(script, Direction::Transmit);
    script.call(Call::Prepare { pushed: false });
    script.show();
    fresh(script, Direction::Transmit);
    script.call(Call::Prefill(&[]));
    script.call(Call::Prepare { pushed: true });
    script.show();
    fresh(script, Direction::Transmit);
    script.call(Call::Prefill(&[1, 2, 3, 4]));
    script.call(Call::Prepare { pushed: true });
    script.call(Call::Prepare { pushed: true });
    script.show();
    fresh(script, Direction::Transmit);
    script.call(Call::CommitPrefill(14));
    script.call(Call::CommitPrefill(1));
    script.call(Call::Prefill(&[1]));
    script.show();
}

fn after_a_stop(script: &mut Script) {
    fresh(script, Direction::Receive);
    script.call(Call::Prepare { pushed: true });
    for count in [3, 3, 3, 5, 1] {
        script.call(Call::Fill(&[7; 5][..count], false));
    }
    script.call(Call::Fill(&[], false));
    script.show();
    script.call(Call::Consume(3));
    script.call(Call::Fill(&[1], false));
    script.show();
    script.set_up(&ring(Direction::Transmit, 4, 14));
    script.device(Device::Stopped);
    script.send(0);
    script.send(4095);
}

/// A step onto the cursor's own record leaves a ring that is not sound; the next call says so.
fn unsound_by_a_step(script: &mut Script) {
    for count in 1..=3 {
        let mut d = with_lengths([3, 3, 3, 5]);
        d.offset = 2;
        script.set_up(&d);
        script.call(Call::Fill(&[9; 3][..count], false));
        script.call(Call::Available);
        script.show();
    }
}

fn offsets_at_length(script: &mut Script) {
    for (cursor, offset) in [(0, 3), (3, 5), (1, 2), (2, 4), (4, 0), (0, 99)] {
        let mut d = with_lengths([3, 2, 3, 5]);
        d.records[2].owner = Owner::Dma;
        (d.cursor, d.offset) = (cursor, offset);
        script.set_up(&d);
        for call in [Call::Available, Call::Peek, Call::PeekUntilEof, Call::Consume(1)] {
            script.call(call);
        }
        script.pop(1);
        script.show();
    }
}
