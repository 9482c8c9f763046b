//! The console as the sample writes to it: the one ring it holds, what was written, what must be answered.

use state::{Answer, Call, Device, Direction, State, Voice, hex, record_line};

use crate::differences::{Verdict, expect};
use crate::rules::{Rules, pieces};

pub struct Script {
    pub ring: State,
    pub input: String,
    pub output: String,
    pub cases: usize,
    pub from_rust: usize,
    pub parted: usize,
    rust: Box<dyn Voice>,
}

impl Script {
    pub fn new(rust: Box<dyn Voice>) -> Script {
        let ring = State::blank(Direction::Receive, 0, 0);
        let (input, output) = (String::new(), String::new());
        Script { ring, input, output, cases: 0, from_rust: 0, parted: 0, rust }
    }

    pub fn line(&mut self, command: &str, answer: &str) {
        self.input += command;
        self.input.push('\n');
        self.output += answer;
        self.output.push('\n');
    }

    pub fn comment(&mut self, text: &str) {
        self.input += &format!("# {text}\n");
    }

    /// Sets up a state by commands. Its shape must be one that `new` accepts; its fields may be anything.
    pub fn set_up(&mut self, state: &State) {
        self.ring = state.clone();
        let lines = state.lines();
        let records = lines.len() - state.n();
        for line in lines[..1].iter().chain(&lines[records..]).chain(&lines[1..records]) {
            self.line(line, "ok");
        }
        if state.buffer.iter().any(|byte| *byte != 0) {
            self.line(&format!("bytes 0 {}", hex(&state.buffer)), "ok");
        }
    }

    pub fn device(&mut self, device: Device) {
        self.ring.device = device;
        let place = match device {
            Device::On(i) => i.to_string(),
            Device::Stopped => "stopped".into(),
        };
        self.line(&format!("device {place}"), "ok");
    }

    pub fn show(&mut self) {
        let lines = self.ring.lines().join("\n");
        self.line("show", &lines);
    }

    /// A case that no ring takes part in and the Rust does not have.
    pub fn ours(&mut self, command: &str, answer: &str) {
        self.cases += 1;
        self.comment(&format!("{} ours", self.cases));
        self.line(command, answer);
    }

    /// One case: the mark, the command and its answer. The ring then stands as the call leaves it.
    pub fn call(&mut self, call: Call) -> Answer {
        let before = self.ring.clone();
        let mut after = before.clone();
        let answer = Rules.call(&call, &mut after);
        let mark = self.ask_rust(&call, &before, answer, &after);
        self.cases += 1;
        self.comment(&format!("{} {mark}", self.cases));
        let text = told(&call, &before, &after, answer);
        self.line(&call.command(&before), &text);
        self.ring = after;
        self.ring.lent.clear();
        if matches!(call, Call::New) {
            self.ring.buffer.fill(0);
        }
        answer
    }

    pub fn pop(&mut self, k: usize) -> Answer {
        self.ring.lent = vec![0; k];
        self.call(Call::Pop)
    }

    pub fn send(&mut self, room: usize) -> Answer {
        self.ring.lent = vec![0; room];
        self.call(Call::Send)
    }

    /// `rust` where the Rust was asked and answers this; else `ours`, with the difference's name where there is one.
    fn ask_rust(&mut self, call: &Call, before: &State, answer: Answer, after: &State) -> String {
        let mut expected = after.clone();
        let verdict = expect(call, before, answer, &mut expected);
        let (want, mark) = match verdict {
            Verdict::NotAsked => return "ours".into(),
            Verdict::Same => (answer, "rust".to_string()),
            Verdict::Listed(name, answer) => (answer, format!("ours: {name}")),
        };
        let mut seen = before.clone();
        let got = self.rust.call(call, &mut seen);
        (seen.tally, seen.device) = (expected.tally, expected.device);
        if got != want || (want != Answer::Panicked && seen != expected) {
            self.parted += 1;
        }
        self.from_rust += (mark == "rust") as usize;
        mark
    }
}

/// The console's answer.
pub fn told(call: &Call, before: &State, after: &State, answer: Answer) -> String {
    let part = |at: usize, len: usize| hex(&before.buffer[at..at + len]);
    match answer {
        Answer::Refused(number) => format!("refused {number}"),
        Answer::Done => "ok".into(),
        Answer::Part { at, len } => format!("peek {}", part(at, len)),
        Answer::PartEof { at, len, eof } => format!("peek {} {}", part(at, len), if eof { "yes" } else { "no" }),
        Answer::Taken { bytes, back } => format!("taken {bytes} back {back}"),
        Answer::Cut { head, middle, tail } => format!("head {head} middle {middle} tail {tail}"),
        Answer::Pieces { covered, used, .. } => pieces_told(call, before, covered, used),
        Answer::Bytes(k) => match call {
            Call::Available => format!("available {k}"),
            Call::Pop => format!("popped {}", hex(&after.lent[..k])),
            Call::Send => format!("sent {}", hex(&after.lent[..k])),
            Call::Fill(..) => format!("filled {k}"),
            Call::Offer | Call::OfferPrefill => format!("offered {k}"),
            _ => format!("accepted {k}"),
        },
        Answer::Piece { .. } | Answer::Panicked | Answer::NotLinked => unreachable!("no answer of the console"),
    }
}

fn pieces_told(call: &Call, before: &State, covered: usize, used: usize) -> String {
    let Call::Pieces(range, _) = call else { unreachable!("only pieces answer so") };
    let mut text = format!("covered {covered} records {used}");
    for (i, piece) in pieces::list(before.n(), range).iter().enumerate() {
        let holder = if piece.in_store { "store" } else { "range" };
        text += &format!("\npiece {i} {holder} {} {}", piece.start, piece.size);
    }
    text
}

/// A record set by hand, in the ring or in the list that the next ring is built from.
pub fn record(script: &mut Script, i: usize, record: state::Record) {
    script.line(&record_line(i, &record), "ok");
}
