//! What docs/DIFFERENCES.md says the Rust does where it parts from the rules: exactly that, and nothing else, is let
//! through. Each has a name, is counted, and shows its smallest input. What stands before a name's colon is the first
//! cell of its row in the document (document.rs).

use state::{Answer, Call, Direction, Owner, State};

use crate::rules::{self, align, pieces, receive, sound, split, transmit};

/// The names, in the order of the report.
pub const LIST: &[&str] = &[
    LAST_PEEK,
    LAST_EOF,
    LAST_POP,
    UNEVEN,
    OVERRUN,
    ZERO,
    MANY,
    MANY_ELSE,
    LATE,
    CUT_COMMIT,
    KEPT_COMMIT,
    KEPT_PANIC,
    UNPUSHED,
    KEPT_COUNT,
    TWICE,
    AT_LENGTH,
    LONG,
    BEYOND,
    ALIGNMENT,
    TAIL,
    OUT,
    MANY_PIECES,
    NO_STORE,
    PAST,
];

pub const LAST_PEEK: &str = "peek on record n-1 with an offset: the first bytes again";
pub const LAST_EOF: &str = "peek_until_eof on record n-1 with an offset: the first bytes again";
pub const LAST_POP: &str = "pop on record n-1 with an offset: copies the first bytes again";
pub const UNEVEN: &str = "r >= chunk: the Rust accepts and leaves bytes unused";
pub const OVERRUN: &str = "advance above available: the Rust runs on over DMA-owned records";
pub const ZERO: &str = "chunk 0: the Rust panics";
pub const MANY: &str = "n > 64: the Rust accepts";
pub const MANY_ELSE: &str = "n > 64 with chunk 0 or a size above 4095: the Rust panics, or refuses with 1";
pub const LATE: &str = "last size above 4095: the Rust refuses after writing the records";
pub const CUT_COMMIT: &str = "commit above the offer: the Rust cuts it";
pub const KEPT_COMMIT: &str = "commit above the offer before prepare: the Rust keeps it";
pub const KEPT_PANIC: &str = "push or offer after such a commit: the Rust panics";
pub const UNPUSHED: &str = "prepare with nothing ever pushed: the Rust sends the whole buffer";
pub const KEPT_COUNT: &str = "the count after prepare: the Rust keeps it";
pub const TWICE: &str = "prepare twice: the Rust's cursor is that of the count again";
pub const AT_LENGTH: &str = "offset equal to length on receive: the Rust goes on";
pub const LONG: &str = "a length above its size on receive: the Rust counts it";
pub const BEYOND: &str = "the cursor's record above n on receive: the Rust panics";
pub const ALIGNMENT: &str = "an alignment that is none: the Rust divides by it";
pub const TAIL: &str = "a tail without a head: the Rust puts it in the first copy buffer";
pub const OUT: &str = "the external alignment for Out: the Rust's own is 1";
pub const MANY_PIECES: &str = "more than 64 records for pieces: the Rust goes on";
pub const NO_STORE: &str = "a bounce store too short: the Rust has its own";
pub const PAST: &str = "pieces of a range past 2^32: the Rust goes on";

pub enum Verdict {
    Same,
    /// The Rust answers this, and leaves what stands in the state given to `expect`.
    Listed(&'static str, Answer),
    NotAsked,
}

/// What the Rust must do on `before`, given what the rules answered. `after` comes as the rules leave it and goes as
/// the Rust must leave it; tally and device are not the Rust's.
pub fn expect(call: &Call, before: &State, answer: Answer, after: &mut State) -> Verdict {
    match call {
        Call::Fill(..) | Call::Send => Verdict::NotAsked,
        Call::New => new(before, answer, after),
        Call::Prepare { pushed } => prepare(*pushed, before, answer, after),
        Call::Align(a) => alignment(a, answer),
        Call::Cut(_) => Verdict::Same,
        Call::Pieces(range, _) => head_and_tail(call, range, before, answer, after),
        Call::Piece(range, ..) => numbered(call, range, before, answer),
        Call::Peek | Call::PeekUntilEof | Call::Pop if answer != Answer::Refused(5) => last_record(call, before, answer, after),
        _ => refused(call, before, answer, after),
    }
}

fn new(before: &State, answer: Answer, after: &mut State) -> Verdict {
    let (n, len) = (before.n(), before.buffer.len());
    let name = match answer {
        Answer::Refused(2) => ZERO,
        Answer::Refused(3) => UNEVEN,
        Answer::Refused(4) => MANY,
        Answer::Refused(_) if n >= split::LEAST && len / n <= split::MOST => LATE,
        _ => return Verdict::Same,
    };
    let theirs = rust_new(after);
    let name = if name == MANY && theirs != Answer::Done { MANY_ELSE } else { name };
    Verdict::Listed(name, theirs)
}

/// The Rust's `new` for four records and more: the excess is what is left of the buffer in whole chunks, and goes to
/// the last record whatever lies between.
fn rust_new(state: &mut State) -> Answer {
    let (n, len) = (state.n(), state.buffer.len());
    let chunk = len / n;
    if chunk > split::MOST {
        return Answer::Refused(1);
    }
    if chunk == 0 {
        return Answer::Panicked;
    }
    for (i, record) in state.records.iter_mut().enumerate() {
        (record.start, record.size) = (i * chunk, chunk);
        if state.direction == Direction::Transmit {
            record.length = chunk;
        }
    }
    let size = chunk + len % chunk;
    if size > split::MOST {
        return Answer::Refused(1);
    }
    state.records[n - 1].size = size;
    (state.cursor, state.offset, state.prefilled) = (0, 0, 0);
    Answer::Done
}

fn prepare(pushed: bool, before: &State, answer: Answer, after: &mut State) -> Verdict {
    if answer != Answer::Done {
        return Verdict::NotAsked;
    }
    if before.direction == Direction::Receive {
        return Verdict::Same;
    }
    if !pushed && before.prefilled == 0 {
        for record in &mut after.records {
            record.length = record.size;
            record.eof = true;
        }
        return Verdict::Listed(UNPUSHED, Answer::Done);
    }
    after.prefilled = before.prefilled;
    if before.prefilled == 0 { Verdict::Same } else { Verdict::Listed(KEPT_COUNT, Answer::Done) }
}

/// With an offset on record n-1 the Rust shows the record's first length - offset bytes.
fn last_record(call: &Call, before: &State, answer: Answer, after: &mut State) -> Verdict {
    let record = &before.records[before.cursor];
    if before.cursor + 1 != before.n() || before.offset == 0 {
        return Verdict::Same;
    }
    let (at, len) = (before.buffer.len() - record.size, record.length - before.offset);
    match (call, answer) {
        (Call::Peek, _) => Verdict::Listed(LAST_PEEK, Answer::part(at, len)),
        (_, Answer::PartEof { eof, .. }) => Verdict::Listed(LAST_EOF, Answer::part_eof(at, len, eof)),
        (_, Answer::Bytes(0)) => Verdict::Same,
        (_, Answer::Bytes(taken)) => {
            let wrong = len.min(taken);
            after.lent[..wrong].copy_from_slice(&before.buffer[at..at + wrong]);
            Verdict::Listed(LAST_POP, answer)
        }
        _ => Verdict::Same,
    }
}

fn refused(call: &Call, before: &State, answer: Answer, after: &mut State) -> Verdict {
    let Answer::Refused(number) = answer else { return Verdict::Same };
    match (number, call) {
        (8, Call::Advance(k)) => Verdict::Listed(OVERRUN, rust_advance(after, *k)),
        (8, Call::Commit(k)) => {
            let offered = transmit::offered(before).1;
            Verdict::Listed(CUT_COMMIT, transmit::accept(after, offered.min(*k)))
        }
        (8, Call::CommitPrefill(k)) => Verdict::Listed(KEPT_COMMIT, transmit::commit_prefill(after, *k)),
        (5, Call::Prefill(_) | Call::OfferPrefill) => kept_too_much(before),
        (5, _) if before.direction == Direction::Receive => unsound(call, before, after),
        _ => Verdict::NotAsked,
    }
}

/// Whatever the owners, up to once round the ring.
fn rust_advance(state: &mut State, k: usize) -> Answer {
    let n = state.n();
    let first = state.cursor;
    let mut left = state.offset.saturating_add(k);
    for i in (0..n).map(|step| (first + step) % n) {
        if state.records[i].size > left {
            (state.cursor, state.offset) = (i, left);
            return Answer::Bytes(k);
        }
        left -= state.records[i].size;
        transmit::queue(state, i);
    }
    state.offset = 0;
    Answer::Bytes(k)
}

fn kept_too_much(before: &State) -> Verdict {
    let mut mended = before.clone();
    mended.prefilled = 0;
    let only_the_count = sound::splits(&mended) && before.prefilled > before.buffer.len();
    if only_the_count { Verdict::Listed(KEPT_PANIC, Answer::Panicked) } else { Verdict::NotAsked }
}

/// The unsound receive states of which the list says something.
fn unsound(call: &Call, before: &State, after: &mut State) -> Verdict {
    if before.cursor >= before.n() {
        let beyond = before.cursor > before.n() && matches!(call, Call::Available) && only_beyond(before);
        return if beyond { Verdict::Listed(BEYOND, Answer::Panicked) } else { Verdict::NotAsked };
    }
    if at_length(before) {
        let part = receive::peek(before);
        let nothing = matches!((call, part), (Call::Pop, Answer::Part { len: 0, .. }));
        let answer = if nothing { Answer::Bytes(0) } else { rules::unchecked(call, after) };
        return Verdict::Listed(AT_LENGTH, answer);
    }
    if matches!(call, Call::Available) && only_long(before) {
        return Verdict::Listed(LONG, rules::unchecked(call, after));
    }
    Verdict::NotAsked
}

fn at_length(before: &State) -> bool {
    let record = &before.records[before.cursor];
    let at_length = record.owner == Owner::Cpu && before.offset == record.length;
    let mut mended = before.clone();
    mended.offset = 0;
    at_length && sound::sound(&mended)
}

fn only_beyond(before: &State) -> bool {
    let mut mended = before.clone();
    (mended.cursor, mended.offset) = (0, 0);
    sound::sound(&mended)
}

fn only_long(before: &State) -> bool {
    let mut mended = before.clone();
    for record in &mut mended.records {
        record.length = record.length.min(record.size);
    }
    sound::sound(&mended)
}

fn alignment(a: &state::Align, answer: Answer) -> Verdict {
    if answer != Answer::Refused(12) {
        return Verdict::Same;
    }
    // Only address 0 is a multiple of 0, and the text is shown addresses above it; see esp/src/regions.rs. Nor is there
    // room for a base that suits two very large alignments.
    let too_large = (a.internal_alignment | a.external_alignment) >= 1 << 28;
    if too_large || (a.address == 0 && align::effective(a) == 0) {
        return Verdict::NotAsked;
    }
    Verdict::Listed(ALIGNMENT, align::placed(a).map_or(Answer::Done, Answer::Refused))
}

/// The name under which the Rust's pieces differ, if they do.
fn pieces_name(answer: Answer, moved: bool) -> Option<&'static str> {
    match answer {
        Answer::Refused(4) => Some(MANY_PIECES),
        Answer::Refused(5) => Some(NO_STORE),
        Answer::Refused(9) => Some(PAST),
        _ => moved.then_some(TAIL),
    }
}

/// The number of the tail's piece, where there is no head and the tail has a record.
fn lone_tail(n: usize, range: &state::Range) -> Option<usize> {
    let (head, tail) = pieces::ends(range);
    let list = pieces::list(n, range);
    let last = list.last()?;
    (head == 0 && tail > 0 && last.in_store).then_some(list.len() - 1)
}

fn head_and_tail(call: &Call, range: &state::Range, before: &State, answer: Answer, after: &mut State) -> Verdict {
    let tail = lone_tail(before.n(), range);
    let Some(name) = pieces_name(answer, tail.is_some()) else { return Verdict::Same };
    let answer = if matches!(answer, Answer::Refused(_)) { rules::unchecked(call, after) } else { answer };
    if let Some(tail) = tail {
        after.records[tail].start = 0;
    }
    Verdict::Listed(name, answer)
}

fn numbered(call: &Call, range: &state::Range, before: &State, answer: Answer) -> Verdict {
    let Call::Piece(_, _, number) = *call else { return Verdict::NotAsked };
    let tail = lone_tail(before.n(), range);
    let Some(name) = pieces_name(answer, tail == Some(number)) else { return Verdict::Same };
    let list = pieces::list(before.n(), range);
    let Some(piece) = list.get(number) else { return Verdict::Listed(name, Answer::Refused(8)) };
    let start = if tail == Some(number) { 0 } else { piece.start };
    Verdict::Listed(name, Answer::Piece { in_store: piece.in_store, start, size: piece.size })
}
