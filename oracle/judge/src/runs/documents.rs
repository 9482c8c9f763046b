//! Document 01's own numbers and the edges found by running the Rust, each asked of every voice; then the named checks that need
//! more than one call.

use ciramohir::{DescriptorList, DmaBufError, DmaRxStreamBuf, DmaTxStreamBuf, LINKED};
use state::{Answer, Call, Chip, Device, Direction, Owner, Range, State};

use super::Size;
use crate::differences::{OUT, TWICE};
use crate::rng::Rng;
use crate::runner::Runner;
use crate::states::ring;

pub fn run(runner: &mut Runner, _: Size, _: &Rng) {
    rows(runner);
    received(runner);
    edges(runner);
    for (prefill, cursor, offset, available) in [(2, 1, 0, 11), (3, 1, 0, 11), (4, 1, 1, 10), (14, 0, 0, 0)] {
        sent(runner, prefill, (cursor, offset), available);
    }
    split_rows(runner);
    twice(runner, 4, 1, (1, 0));
    twice(runner, 14, 4, (1, 1));
    sharper(runner);
    out(runner);
    views(runner);
}

/// The row's answer, and the sizes it shows where there are any.
fn rows(runner: &mut Runner) {
    let sizes = |sizes: &'static [usize]| (Answer::Done, sizes);
    let refused = |number| (Answer::Refused(number), [].as_slice());
    let table = [
        (3, refused(2)),
        (4, sizes(&[1, 1, 1, 1])),
        (11, refused(3)),
        (14, sizes(&[3, 3, 3, 5])),
        (15, refused(3)),
        (16377, sizes(&[4094, 4094, 4094, 4095])),
        (16378, refused(1)),
        (16380, sizes(&[4095; 4])),
        (16381, refused(1)),
    ];
    for direction in [Direction::Receive, Direction::Transmit] {
        for (len, (answer, sizes)) in table {
            let got = runner.check(Call::New, &State::blank(direction, 4, len));
            let shown: Vec<usize> = runner.after.records.iter().map(|record| record.size).collect();
            runner.claim(got == answer && (sizes.is_empty() || shown == sizes), &format!("row of length {len}"));
        }
    }
}

/// One call on the carried state, with the answer that the document gives.
fn must(runner: &mut Runner, state: &mut State, call: Call, answer: Answer) {
    let got = runner.check(call, state);
    std::mem::swap(state, &mut runner.after);
    runner.claim(got == answer, &format!("{} answers {answer:?}, not {got:?}", call.command(state)));
}

fn pops(runner: &mut Runner, state: &mut State, k: usize, bytes: &[u8], cursor: (usize, usize)) {
    state.lent = vec![0; k];
    must(runner, state, Call::Pop, Answer::Bytes(bytes.len()));
    let as_told = state.lent[..bytes.len()] == *bytes && (state.cursor, state.offset) == cursor;
    runner.claim(as_told, &format!("pop {k} gives {bytes:?} and cursor {cursor:?}"));
    state.lent.clear();
}

fn received(runner: &mut Runner) {
    let mut d = ring(Direction::Receive, 4, 14);
    must(runner, &mut d, Call::Prepare { pushed: true }, Answer::Done);
    must(runner, &mut d, Call::Fill(&[1, 2, 3], false), Answer::Bytes(3));
    must(runner, &mut d, Call::Fill(&[4, 5], true), Answer::Bytes(2));
    must(runner, &mut d, Call::Available, Answer::Bytes(5));
    must(runner, &mut d, Call::Peek, Answer::part(0, 5));
    must(runner, &mut d, Call::PeekUntilEof, Answer::part_eof(0, 5, true));
    pops(runner, &mut d, 4, &[1, 2, 3, 4], (1, 1));
    runner.claim(d.records[3].next == Some(0) && d.records[0].next.is_none(), "next of 3 is 0, next of 0 none");
    pops(runner, &mut d, 4, &[5], (2, 0));
    must(runner, &mut d, Call::Fill(&[6, 7, 8], false), Answer::Bytes(3));
    must(runner, &mut d, Call::Fill(&[9, 10, 11, 12, 13], false), Answer::Bytes(5));
    pops(runner, &mut d, 5, &[6, 7, 8, 9, 10], (3, 2));
    must(runner, &mut d, Call::Peek, Answer::part(11, 3));
}

/// Edges found by running the Rust that agree with it.
fn edges(runner: &mut Runner) {
    let mut d = ring(Direction::Receive, 4, 14);
    d.records[1].length = 3;
    pops(runner, &mut d, 2, &[], (0, 0));
    must(runner, &mut d, Call::Consume(0), Answer::Taken { bytes: 0, back: 1 });
    let mut d = ring(Direction::Receive, 4, 14);
    (d.records[0].length, d.records[2].length) = (3, 3);
    let first: Vec<u8> = d.buffer[..3].into();
    pops(runner, &mut d.clone(), 3, &first, (2, 0));
    let six = [&first[..], &d.buffer[6..9]].concat();
    pops(runner, &mut d, 6, &six, (0, 0));
    let mut d = ring(Direction::Receive, 4, 14);
    for record in &mut d.records {
        record.length = record.size;
    }
    (d.cursor, d.offset) = (1, 1);
    must(runner, &mut d, Call::Consume(99), Answer::Taken { bytes: 13, back: 4 });
    runner.claim((d.cursor, d.offset) == (1, 0) && d.records[0].next.is_none(), "all back: cursor (1,0), the last one's next none");
    d.device = Device::Stopped;
    must(runner, &mut d, Call::Fill(&[], false), Answer::Refused(7));
}

fn sent(runner: &mut Runner, prefill: usize, cursor: (usize, usize), available: usize) {
    let mut d = ring(Direction::Transmit, 4, 14);
    let data: Vec<u8> = (1..=14).collect();
    must(runner, &mut d, Call::Prefill(&data[..prefill]), Answer::Bytes(prefill));
    must(runner, &mut d, Call::Prepare { pushed: true }, Answer::Done);
    runner.claim((d.cursor, d.offset) == cursor, &format!("prefill {prefill} gives cursor {cursor:?}"));
    must(runner, &mut d, Call::Available, Answer::Bytes(available));
    if prefill == 2 {
        runner.claim(d.records[0].length == 2, "prefill 2: record 0 has length 2");
    }
    if prefill == 4 {
        must(runner, &mut d, Call::Push(&data[..5]), Answer::Bytes(5));
        runner.claim((d.cursor, d.offset) == (3, 0), "push 5 then gives (3,0)");
    }
}

fn split_rows(runner: &mut Runner) {
    let mut list = State::blank(Direction::Receive, 6, 0);
    let cuts = [(13, 100, Chip::Ordinary, (3, 96, 1)), (13, 100, Chip::S2, (19, 64, 17)), (13, 24, Chip::S2, (24, 0, 0))];
    for (address, length, chip, (head, middle, tail)) in cuts {
        must(runner, &mut list, Call::Cut(Range { address, length, chip }), Answer::Cut { head, middle, tail });
    }
    let range = Range { address: 32, length: 8170, chip: Chip::Ordinary };
    must(runner, &mut list, Call::Pieces(range, 32), Answer::Pieces { covered: 8170, used: 3, in_store: 0b100 });
    let sizes: Vec<usize> = list.records[..3].iter().map(|record| record.size).collect();
    runner.claim(sizes == [4080, 4080, 10], "8170 in pieces of 4080, 4080, 10");
    let mut two = State::blank(Direction::Receive, 2, 0);
    must(runner, &mut two, Call::Pieces(range, 32), Answer::Pieces { covered: 8160, used: 2, in_store: 0 });
    let mut none = State::blank(Direction::Receive, 0, 0);
    must(runner, &mut none, Call::Pieces(range, 32), Answer::Pieces { covered: 0, used: 0, in_store: 0 });
}

/// A second prepare gives (0,0) by the rules, and in the Rust what the first one gave.
fn twice(runner: &mut Runner, len: usize, prefilled: usize, first: (usize, usize)) {
    let mut ring = ring(Direction::Transmit, 4, len);
    ring.prefilled = prefilled;
    let mut there = ring.clone();
    for cursor in [first, (0, 0)] {
        must(runner, &mut ring, Call::Prepare { pushed: true }, Answer::Done);
        runner.claim((ring.cursor, ring.offset) == cursor, &format!("prepare gives cursor {cursor:?}"));
    }
    let Some(rust) = &mut runner.rust else { return };
    let mut cursors = Vec::new();
    for _ in 0..2 {
        rust.call(&Call::Prepare { pushed: true }, &mut there);
        cursors.push((there.cursor, there.offset));
    }
    let as_listed = cursors == [first, first];
    runner.claim(as_listed, TWICE);
    if as_listed {
        let told = || format!("tx 4 {len}; prefilled {prefilled}; prepare; prepare: (0, 0) here, {first:?} there");
        runner.note_as(TWICE, (4, len, prefilled, 0, 0), told);
    }
}

/// Where the list says more of the Rust than its smallest input shows.
fn sharper(runner: &mut Runner) {
    let mut owned = ring(Direction::Transmit, 4, 4);
    owned.records.iter_mut().for_each(|record| record.owner = Owner::Dma);
    must(runner, &mut owned, Call::Advance(9), Answer::Refused(8));
    must(runner, &mut State::blank(Direction::Receive, 65, 65 * 4096), Call::New, Answer::Refused(4));
    let mut at_length = ring(Direction::Receive, 4, 8);
    (at_length.records[0].length, at_length.records[1].length, at_length.offset) = (1, 2, 1);
    at_length.lent = vec![0xEE; 2];
    must(runner, &mut at_length, Call::Pop, Answer::Refused(5));
}

/// In keeps its line of 16, Out is 1.
fn out(runner: &mut Runner) {
    let Some(out) = esp::external_alignment(Direction::Transmit) else { return };
    let as_listed = out == 1 && esp::external_alignment(Direction::Receive) == Some(16);
    runner.claim(as_listed, OUT);
    if as_listed {
        runner.note_as(OUT, (0, 0, 0, 0, 0), || "min_psram_alignment: In 16, Out 1".into());
    }
}

/// From a view and back to one: the receive cursor is (0,0), the transmit cursor stays (ours alone).
fn views(runner: &mut Runner) {
    if LINKED {
        runner.claim(receive_view() == Ok((0, 0)), "after a pop, from_view then into_view gives cursor (0,0)");
        runner.claim(transmit_view() == Ok((1, 1)), "after 4 prefilled and prepare, into_view, from_view, into_view keep cursor (1,1)");
    }
}

fn receive_view() -> Result<(usize, usize), DmaBufError> {
    let (mut list, mut buffer) = (DescriptorList::new(4), [0; 14]);
    let mut ring = DmaRxStreamBuf::new(&mut list, &mut buffer)?;
    ring.prepare()?;
    let mut view = ring.into_view();
    ciramohir::Device::on(0).receive(&mut view, &[1, 2, 3], false)?;
    view.pop(&mut [0; 2])?;
    if (view.head().descriptor_idx, view.head().descriptor_offset) != (0, 2) {
        return Err(DmaBufError::BadState);
    }
    let head = DmaRxStreamBuf::from_view(view).into_view().head();
    Ok((head.descriptor_idx, head.descriptor_offset))
}

fn transmit_view() -> Result<(usize, usize), DmaBufError> {
    let (mut list, mut buffer) = (DescriptorList::new(4), [0; 14]);
    let mut ring = DmaTxStreamBuf::new(&mut list, &mut buffer)?;
    ring.push(&[1, 2, 3, 4])?;
    ring.prepare()?;
    let head = DmaTxStreamBuf::from_view(ring.into_view()).into_view().head();
    Ok((head.descriptor_idx, head.descriptor_offset))
}
