//! Asks every voice the same call on the same state, and keeps counts, listed differences and mismatches.

use std::collections::BTreeMap;

use state::{Answer, Call, NAMES, State, Voice, commands};

use crate::differences::{Verdict, expect};
use crate::rules::Rules;

/// How large an input is: records, buffer, request, then what is set in it.
pub type Measure = (usize, usize, usize, usize, usize);

pub struct Seen {
    pub count: u64,
    pub smallest: Measure,
    pub input: String,
}

#[derive(Default, Clone, Copy)]
pub struct Count {
    pub cases: u64,
    pub rust: u64,
    pub ours: u64,
}

pub struct Runner {
    pub rust: Option<Box<dyn Voice>>,
    pub ours: Option<Box<dyn Voice>>,
    pub counts: [Count; NAMES.len()],
    pub listed: BTreeMap<&'static str, Seen>,
    /// Statements that were tried.
    pub claims: u64,
    pub mismatches: u64,
    pub worst: Option<(Measure, String)>,
    pub stop_at_first: bool,
    /// The state as the rules leave it, after each check.
    pub after: State,
    seen: State,
}

pub fn measure(call: &Call, state: &State) -> Measure {
    let set: usize = state.records.iter().map(|r| r.length + r.eof as usize + r.next.map_or(0, |next| 1 + next)).sum();
    let request = call.weight() + state.lent.len();
    (state.n(), state.buffer.len(), request, set, state.cursor + state.offset + state.prefilled)
}

impl Runner {
    pub fn new(rust: Option<Box<dyn Voice>>, ours: Option<Box<dyn Voice>>) -> Runner {
        let blank = State::blank(state::Direction::Receive, 0, 0);
        Runner {
            rust,
            ours,
            counts: [Count::default(); NAMES.len()],
            listed: BTreeMap::new(),
            claims: 0,
            mismatches: 0,
            worst: None,
            stop_at_first: false,
            after: blank.clone(),
            seen: blank,
        }
    }

    /// True once there is nothing more to learn.
    pub fn done(&self) -> bool {
        self.stop_at_first && self.mismatches > 0
    }

    pub fn comparisons(&self) -> u64 {
        self.counts.iter().map(|count| count.rust + count.ours).sum()
    }

    /// One call on one state, by every voice. Answers what the rules do.
    pub fn check(&mut self, call: Call, before: &State) -> Answer {
        self.after.copy_from(before);
        let answer = Rules.call(&call, &mut self.after);
        let index = call.index(before.direction);
        self.counts[index].cases += 1;
        self.check_ours(&call, before, answer, index);
        if self.rust.is_some() {
            self.check_rust(&call, before, answer, index);
        }
        answer
    }

    fn check_ours(&mut self, call: &Call, before: &State, expected: Answer, index: usize) {
        let Some(ours) = &mut self.ours else { return };
        self.seen.copy_from(before);
        let answer = ours.call(call, &mut self.seen);
        self.counts[index].ours += 1;
        if answer != expected || self.seen != self.after {
            let why = difference(expected, &self.after, answer, &self.seen);
            self.mismatch("ours parts from the rules", call, before, &why);
        }
    }

    fn check_rust(&mut self, call: &Call, before: &State, rules: Answer, index: usize) {
        // What the list lets through is written over a copy, so that the rules' own state stays for the caller.
        let kept = kept(&self.after, call, before, rules);
        let (expected, after) = match &kept {
            Kept::NotAsked => return,
            Kept::Same => (rules, &self.after),
            Kept::Listed(_, answer, after) => (*answer, after),
        };
        self.seen.copy_from(before);
        let answer = self.rust.as_mut().expect("asked only where it is there").call(call, &mut self.seen);
        self.counts[index].rust += 1;
        (self.seen.tally, self.seen.device) = (after.tally, after.device);
        let same_state = expected == Answer::Panicked || self.seen == *after;
        if answer != expected || !same_state {
            let why = difference(expected, after, answer, &self.seen);
            let whom = match kept {
                Kept::Listed(name, ..) => format!("the Rust parts from the listed difference ({name})"),
                _ => "the Rust parts from the rules".into(),
            };
            self.mismatch(&whom, call, before, &why);
        } else if let Kept::Listed(name, ..) = kept {
            self.note(name, call, before);
        }
    }

    fn note(&mut self, name: &'static str, call: &Call, before: &State) {
        self.note_as(name, measure(call, before), || commands(call, before));
    }

    /// A listed difference was seen just as listed.
    pub fn note_as(&mut self, name: &'static str, size: Measure, input: impl FnOnce() -> String) {
        let largest = (usize::MAX, 0, 0, 0, 0);
        let seen = self.listed.entry(name).or_insert(Seen { count: 0, smallest: largest, input: String::new() });
        seen.count += 1;
        if size < seen.smallest {
            (seen.smallest, seen.input) = (size, input());
        }
    }

    pub fn mismatch(&mut self, whom: &str, call: &Call, before: &State, why: &str) {
        let size = measure(call, before);
        self.mismatches += 1;
        if self.worst.as_ref().is_none_or(|(least, _)| size < *least) {
            let name = NAMES[call.index(before.direction)];
            self.worst = Some((size, format!("{whom}: {name}\n  {}\n  {why}", commands(call, before))));
        }
    }

    /// A statement of the documents that the run itself tries.
    pub fn claim(&mut self, holds: bool, what: &str) {
        self.claims += 1;
        if !holds {
            self.mismatches += 1;
            self.worst.get_or_insert((measure(&Call::Peek, &self.after), format!("does not hold: {what}")));
        }
    }
}

enum Kept {
    Same,
    Listed(&'static str, Answer, State),
    NotAsked,
}

/// Most calls are on no list: only those that may be get a copy to write on.
fn kept(after: &State, call: &Call, before: &State, answer: Answer) -> Kept {
    if !may_part(call, before, answer) {
        return Kept::Same;
    }
    let mut after = after.clone();
    match expect(call, before, answer, &mut after) {
        Verdict::Same => Kept::Same,
        Verdict::Listed(name, answer) => Kept::Listed(name, answer, after),
        Verdict::NotAsked => Kept::NotAsked,
    }
}

fn may_part(call: &Call, before: &State, answer: Answer) -> bool {
    let refused = matches!(answer, Answer::Refused(_));
    let special = matches!(call, Call::Prepare { .. } | Call::Fill(..) | Call::Send | Call::Pieces(..) | Call::Piece(..));
    let on_last = before.cursor + 1 == before.n() && before.offset > 0;
    refused || special || (on_last && before.direction == state::Direction::Receive)
}

/// The first thing in which two outcomes differ.
fn difference(expected: Answer, after: &State, answer: Answer, seen: &State) -> String {
    if expected != answer {
        return format!("expected {expected:?}, got {answer:?}");
    }
    for (i, (want, got)) in after.records.iter().zip(&seen.records).enumerate() {
        if want != got {
            return format!("record {i}: expected {want:?}, got {got:?}");
        }
    }
    let place = |name: &str, want: &[u8], got: &[u8]| {
        let at = want.iter().zip(got).position(|(a, b)| a != b).unwrap_or(want.len().min(got.len()));
        format!("{name} at {at}: expected {:?}, got {:?}", want.get(at), got.get(at))
    };
    if after.buffer != seen.buffer {
        return place("buffer", &after.buffer, &seen.buffer);
    }
    if after.lent != seen.lent {
        return place("lent slice", &after.lent, &seen.lent);
    }
    let small =
        |s: &State| format!("cursor ({}, {}) tally {} prefilled {} device {:?}", s.cursor, s.offset, s.tally, s.prefilled, s.device);
    format!("expected {}, got {}", small(after), small(seen))
}
