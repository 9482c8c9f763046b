//! Words that are no ring, which the plain state cannot hold: our library must answer 5 and write nothing. Also what
//! stands in the words beyond the ring's own records: it is not judged, and stays.

use ciramohir::{DescriptorList, DmaBufError, DmaRxStreamBufView, DmaTxStreamBufView, LIMIT, LINKED, library};
use state::Direction;

use super::Size;
use crate::rng::Rng;
use crate::runner::Runner;

const N: usize = 4;
const LEN: usize = 14;
const OWNER: usize = 3 * LIMIT;
const EOF: usize = 4 * LIMIT;

pub fn run(runner: &mut Runner, _: Size, rng: &Rng) {
    if !LINKED {
        return;
    }
    let spoils: &[(&str, fn(&mut [u64; 5], &mut [u16; 5 * LIMIT]))] = &[
        ("an owner of 2", |_, cells| cells[OWNER + 1] = 2),
        ("an EOF mark of 2", |_, cells| cells[EOF + 3] = 2),
        ("an owner of 65535", |_, cells| cells[OWNER] = u16::MAX),
        ("an owner of 2 beyond the ring's records", |_, cells| cells[OWNER + LIMIT - 1] = 2),
        ("an EOF mark of 2 beyond the ring's records", |_, cells| cells[EOF + N] = 2),
        ("a next of 65535", |_, cells| cells[2 * LIMIT + 2] = u16::MAX),
        ("a tally of 2^32", |head, _| head[3] = 1 << 32),
        ("a count of 2^63", |head, _| head[0] = 1 << 63),
        ("a count of 65", |head, _| head[0] = 65),
        ("a cursor of 2^63", |head, _| head[1] = 1 << 63),
        ("an offset of 2^64 - 1", |head, _| head[2] = u64::MAX),
        ("a prefilled count of 2^64 - 1", |head, _| head[4] = u64::MAX),
    ];
    for (name, spoil) in spoils {
        for direction in [Direction::Receive, Direction::Transmit] {
            let (mut head, mut list) = words(direction, rng);
            spoil(&mut head, list.words_mut().1);
            let refused = asked(direction, head, &mut list).iter().all(|answer| *answer == Err(DmaBufError::BadState));
            runner.claim(refused, &format!("{name} is refused with 5, {direction:?}"));
        }
    }
    beyond(runner, rng);
    short_slices(runner, rng);
}

/// Row D, all CPU-owned and full, with any records in the words beyond its own four.
fn words(direction: Direction, rng: &Rng) -> ([u64; 5], DescriptorList) {
    let state = crate::states::ring(direction, N, LEN);
    let mut list = DescriptorList::new(N);
    let (starts, cells) = list.words_mut();
    for i in 0..LIMIT {
        starts[i] = state.records.get(i).map_or(rng.next() as u32, |record| record.start as u32);
        for block in 0..5 {
            // A mark is 0 or 1 in every record that the words hold.
            let word = rng.next() as u16;
            cells[block * LIMIT + i] = if block < 3 { word } else { word & 1 };
        }
        if let Some(record) = state.records.get(i) {
            (cells[i], cells[LIMIT + i], cells[2 * LIMIT + i]) = (record.size as u16, record.size as u16, 0);
            (cells[OWNER + i], cells[EOF + i]) = (0, 0);
        }
    }
    ([N as u64, 1, 1, 7, 0], list)
}

/// Every call of a view on these words. None may write where it is refused.
fn asked(direction: Direction, head: [u64; 5], list: &mut DescriptorList) -> Vec<Result<usize, DmaBufError>> {
    let (kept, mut buffer, mut lent) = (list.clone(), [0u8; LEN], [0xEE; 3]);
    let mut answers;
    let after;
    match direction {
        Direction::Receive => {
            let mut view = DmaRxStreamBufView::from_words(list, &mut buffer, head);
            answers = vec![view.available_bytes(), view.peek().map(|part| part.len()), view.pop(&mut lent), view.consume(2)];
            answers.push(view.peek_until_eof().map(|(part, _)| part.len()));
            after = view.head_words();
        }
        Direction::Transmit => {
            let mut view = DmaTxStreamBufView::from_words(list, &mut buffer, head);
            answers = vec![view.available_bytes(), view.offer().map(|part| part.len()), view.push(&[1, 2]), view.advance(2)];
            answers.push(view.commit(1));
            after = view.head_words();
        }
    }
    let written = after != head || *list != kept || buffer != [0; LEN] || lent != [0xEE; 3];
    if written && answers.iter().all(|answer| answer.is_err()) {
        answers.push(Ok(0));
    }
    answers
}

fn beyond(runner: &mut Runner, rng: &Rng) {
    for direction in [Direction::Receive, Direction::Transmit] {
        let (head, mut list) = words(direction, rng);
        let kept = list.clone();
        let answers = asked(direction, head, &mut list);
        runner.claim(answers.iter().all(|answer| answer.is_ok()), "words beyond the ring's records are not judged");
        let mut kept = kept;
        let same = (N..LIMIT).all(|i| list.get(i) == kept.get(i) && list.words_mut().0[i] == kept.words_mut().0[i]);
        runner.claim(same, "words beyond the ring's records stay");
    }
}

/// Slices that are shorter or longer than the layout's.
fn short_slices(runner: &mut Runner, rng: &Rng) {
    let (mut head, mut list) = words(Direction::Receive, rng);
    let (starts, cells) = list.words_mut();
    let lengths = [(4, 64, 320, 3), (5, 63, 320, 3), (5, 64, 319, 3), (5, 64, 320, 0), (0, 0, 0, 0), (5, 64, 320, 3)];
    for (head_len, starts_len, cells_len, answer_len) in lengths {
        let mut answer = [9u64; 3];
        // SAFETY: no length is above what stands behind its pointer.
        let number = unsafe {
            library::dma_rx_available_bytes(
                head.as_mut_ptr(),
                head_len,
                starts.as_mut_ptr(),
                starts_len,
                cells.as_mut_ptr(),
                cells_len,
                LEN,
                answer.as_mut_ptr(),
                answer_len,
            )
        };
        let whole = (head_len, starts_len, cells_len, answer_len) == (5, 64, 320, 3);
        let as_told = if whole { number == 0 } else { number == 5 && answer == [9; 3] };
        runner.claim(as_told, &format!("slices of {head_len}, {starts_len}, {cells_len}, {answer_len} words answer {number}"));
    }
}
