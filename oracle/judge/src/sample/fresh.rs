//! `new` about every edge, over lent records that hold something.

use state::{Answer, Call, Direction, Owner, Record, State};

use super::script::{Script, record};

pub fn write(script: &mut Script) {
    script.comment("new");
    for direction in [Direction::Receive, Direction::Transmit] {
        for n in [3, 4, 5, 6, 64, 65] {
            for len in lengths(n) {
                shape(script, direction, n, len);
            }
        }
    }
}

fn lengths(n: usize) -> Vec<usize> {
    let mut lengths: Vec<usize> =
        if n <= 6 { (0..=3 * n + 2).collect() } else { vec![0, n - 1, n, 2 * n, n * n - 1, n * n, n * n + n - 1] };
    for at in [4094 * n, 4095 * n] {
        lengths.extend([at, at + 1, at + 2]);
    }
    lengths
}

/// Fields that a lent record may hold, told by its number.
fn lent(i: usize) -> Record {
    Record {
        start: 100 + i,
        size: 9 + i,
        length: 40 + i,
        eof: i % 2 == 0,
        owner: if i % 3 == 0 { Owner::Dma } else { Owner::Cpu },
        next: (i % 2 == 1).then_some(2 * i),
    }
}

fn shape(script: &mut Script, direction: Direction, n: usize, len: usize) {
    let kept = script.ring.clone();
    script.ring = State::blank(direction, n, len);
    // What a ring wrote stands in the list afterwards: only the records shown are set again.
    let shown = n.min(6);
    for i in 0..shown {
        script.ring.records[i] = lent(i);
        record(script, i, lent(i));
    }
    let answer = script.call(Call::New);
    if answer == Answer::Done && n <= 6 {
        script.show();
    }
    if answer != Answer::Done {
        script.ring = kept;
    }
}
