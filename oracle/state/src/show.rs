//! States and calls in the command language of the bench console.

use crate::{Align, Call, Chip, Device, Direction, Owner, Range, Record, State};

/// Pairs of hex digits, `-` for none.
pub fn hex(bytes: &[u8]) -> String {
    if bytes.is_empty() {
        return "-".into();
    }
    bytes.iter().map(|byte| format!("{byte:02x}")).collect()
}

pub fn record_line(i: usize, record: &Record) -> String {
    let eof = if record.eof { "eof" } else { "-" };
    let owner = if record.owner == Owner::Cpu { "cpu" } else { "dma" };
    let next = record.next.map_or("-".into(), |next| next.to_string());
    format!("record {i} {} {} {} {eof} {owner} {next}", record.start, record.size, record.length)
}

impl State {
    /// What the console's `show` prints: the commands that set this state up, the bytes apart.
    pub fn lines(&self) -> Vec<String> {
        let word = if self.direction == Direction::Receive { "rx" } else { "tx" };
        let mut lines = vec![format!("{word} {} {}", self.n(), self.buffer.len())];
        if self.direction == Direction::Transmit {
            lines.push(format!("prefilled {}", self.prefilled));
        }
        lines.push(format!("cursor {} {}", self.cursor, self.offset));
        lines.push(format!("tally {}", self.tally));
        lines.push(match self.device {
            Device::On(i) => format!("device {i}"),
            Device::Stopped => "device stopped".into(),
        });
        lines.extend(self.records.iter().enumerate().map(|(i, record)| record_line(i, record)));
        lines
    }
}

fn chip(chip: Chip) -> &'static str {
    match chip {
        Chip::Ordinary => "ordinary",
        Chip::S2 => "s2",
    }
}

fn align(a: &Align) -> String {
    let way = if a.direction == Direction::Receive { "in" } else { "out" };
    let (i, e) = (a.internal, a.external);
    let ends = format!("{} {} {} {}", i.0, i.1, e.0, e.1);
    format!("align {} {} {way} {ends} {} {}", a.address, a.length, a.internal_alignment, a.external_alignment)
}

fn range(r: &Range) -> String {
    format!("{} {} {}", r.address, r.length, chip(r.chip))
}

impl Call<'_> {
    /// The call as a console command.
    pub fn command(&self, state: &State) -> String {
        match self {
            Call::New => state.lines()[0].clone(),
            Call::Prepare { .. } => "prepare".into(),
            Call::Available => "available".into(),
            Call::Peek => "peek".into(),
            Call::PeekUntilEof => "peek_until_eof".into(),
            Call::Consume(k) => format!("consume {k}"),
            Call::Pop => format!("pop {}", state.lent.len()),
            Call::Prefill(data) => format!("prefill {}", hex(data)),
            Call::OfferPrefill => "offer_prefill".into(),
            Call::CommitPrefill(k) => format!("commit_prefill {k}"),
            Call::Push(data) => format!("push {}", hex(data)),
            Call::Offer => "offer".into(),
            Call::Commit(k) => format!("commit {k}"),
            Call::Advance(k) => format!("advance {k}"),
            Call::Fill(data, eof) => format!("fill {}{}", hex(data), if *eof { " eof" } else { "" }),
            Call::Send => format!("send {}", state.lent.len()),
            Call::Align(a) => align(a),
            Call::Cut(r) => format!("cut {}", range(r)),
            Call::Pieces(r, store) => format!("pieces {} {} {store}", state.n(), range(r)),
            Call::Piece(r, store, i) => format!("pieces {} {} {store} # piece {i}", state.n(), range(r)),
        }
    }

    /// Whether the call reads the ring at all.
    pub fn on_ring(&self) -> bool {
        !matches!(self, Call::Align(_) | Call::Cut(_) | Call::Pieces(..) | Call::Piece(..))
    }
}

/// The state, its bytes where they are few, and the call.
pub fn commands(call: &Call, state: &State) -> String {
    let mut lines = if call.on_ring() { state.lines() } else { Vec::new() };
    if call.on_ring() && !state.buffer.is_empty() && state.buffer.len() <= 64 {
        lines.push(format!("bytes 0 {}", hex(&state.buffer)));
    }
    lines.push(call.command(state));
    lines.join("; ")
}
