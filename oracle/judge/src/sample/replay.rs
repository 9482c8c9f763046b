//! Replays a stored sample over our library, or over the rules where it is not linked: the console's language, read
//! apart from the writer of the sample.

use std::fs;
use std::process::ExitCode;

use state::{Align, Answer, Call, Chip, Device, Direction, Owner, Range, Record, State, Voice};

use super::script::told;
use crate::rules::Rules;

/// The one list of records, and the ring over its first ones.
pub struct Console {
    list: Vec<Record>,
    ring: State,
    voice: Box<dyn Voice>,
}

pub fn run(file: &str) -> ExitCode {
    let read = |ending: &str| fs::read_to_string(format!("{file}.{ending}"));
    let (Ok(input), Ok(output)) = (read("in"), read("out")) else {
        println!("{file}.in or {file}.out is absent: nothing was replayed");
        return ExitCode::SUCCESS;
    };
    let voice = crate::ours::voice().unwrap_or(Box::new(Rules));
    let mut console = Console::new(voice);
    let mut expected = output.lines();
    let mut answered = 0;
    for (number, line) in input.lines().enumerate().filter(|(_, line)| !line.starts_with('#') && !line.is_empty()) {
        for answer in console.answer(line).lines() {
            let want = expected.next().unwrap_or("nothing more");
            if answer != want {
                println!("line {}: {line}\n  stored {want}\n  answered {answer}", number + 1);
                return ExitCode::from(1);
            }
        }
        answered += 1;
    }
    let over = if ciramohir::LINKED { "our library" } else { "the rules" };
    println!("{answered} commands replayed over {over}, every answer as stored");
    if expected.next().is_some() { ExitCode::from(1) } else { ExitCode::SUCCESS }
}

fn number(word: &str) -> usize {
    word.parse().expect("a number")
}

fn bytes(word: &str) -> Vec<u8> {
    let digits = if word == "-" { "" } else { word };
    (0..digits.len()).step_by(2).map(|at| u8::from_str_radix(&digits[at..at + 2], 16).expect("hex")).collect()
}

fn range(words: &[&str]) -> Range {
    let chip = if words[2] == "s2" { Chip::S2 } else { Chip::Ordinary };
    Range { address: number(words[0]) as u32, length: number(words[1]) as u32, chip }
}

fn align(words: &[&str]) -> Align {
    let n = |i: usize| number(words[i]) as u64;
    Align {
        address: n(0) as u32,
        length: n(1) as u32,
        direction: if words[2] == "in" { Direction::Receive } else { Direction::Transmit },
        internal: (n(3), n(4)),
        external: (n(5), n(6)),
        internal_alignment: n(7) as u32,
        external_alignment: n(8) as u32,
    }
}

fn record(words: &[&str]) -> Record {
    Record {
        start: number(words[0]),
        size: number(words[1]),
        length: number(words[2]),
        eof: words[3] == "eof",
        owner: if words[4] == "dma" { Owner::Dma } else { Owner::Cpu },
        next: (words[5] != "-").then(|| number(words[5])),
    }
}

impl Console {
    pub fn new(voice: Box<dyn Voice>) -> Console {
        Console { list: vec![Record::EMPTY; 64], ring: State::blank(Direction::Receive, 0, 0), voice }
    }

    pub fn answer(&mut self, line: &str) -> String {
        let words: Vec<&str> = line.split(' ').collect();
        match words[0] {
            "show" => self.ring.lines().join("\n"),
            "between" => format!("between {}", (number(words[2]) as u32).wrapping_sub(number(words[1]) as u32)),
            "record" | "cursor" | "tally" | "prefilled" | "device" | "bytes" => self.set(words[0], &words[1..]),
            _ => self.call(&words),
        }
    }

    fn set(&mut self, word: &str, arguments: &[&str]) -> String {
        let first = arguments[0];
        match word {
            "record" => {
                let i = number(first);
                self.list[i] = record(&arguments[1..]);
                if i < self.ring.n() {
                    self.ring.records[i] = self.list[i];
                }
            }
            "cursor" => (self.ring.cursor, self.ring.offset) = (number(first), number(arguments[1])),
            "tally" => self.ring.tally = number(first) as u32,
            "prefilled" => self.ring.prefilled = number(first),
            "device" => self.ring.device = if first == "stopped" { Device::Stopped } else { Device::On(number(first)) },
            _ => {
                let bytes = bytes(arguments[1]);
                self.ring.buffer[number(first)..][..bytes.len()].copy_from_slice(&bytes);
            }
        }
        "ok".into()
    }

    fn call(&mut self, words: &[&str]) -> String {
        let data = data(words);
        let (call, before) = self.asked(words, &data);
        let mut after = before.clone();
        let answer = self.voice.call(&call, &mut after);
        let text = told(&call, &before, &after, answer);
        after.lent.clear();
        match call {
            Call::New if answer == Answer::Done => self.ring = after,
            Call::New => return text,
            Call::Pieces(..) => {
                self.keep(&after.records);
                self.ring.records.iter_mut().zip(&self.list).for_each(|(record, kept)| *record = *kept);
                return text;
            }
            _ => self.ring = after,
        }
        let records = self.ring.records.clone();
        self.keep(&records);
        text
    }

    fn keep(&mut self, records: &[Record]) {
        self.list.iter_mut().zip(records).for_each(|(kept, record)| *kept = *record);
    }

    fn over_list(&self, direction: Direction, n: usize, len: usize) -> State {
        let mut state = State::blank(direction, n, len);
        state.records.iter_mut().zip(&self.list).for_each(|(record, lent)| *record = *lent);
        state
    }

    /// The call that a command makes, with its bytes, and the state that it is made on.
    pub fn asked<'a>(&self, words: &[&str], data: &'a [u8]) -> (Call<'a>, State) {
        let n = |i: usize| number(words[i]);
        let mut ring = self.ring.clone();
        if matches!(words[0], "pop" | "send") {
            ring.lent = vec![0; n(1)];
        }
        let call = match words[0] {
            "rx" => return (Call::New, self.over_list(Direction::Receive, n(1), n(2))),
            "tx" => return (Call::New, self.over_list(Direction::Transmit, n(1), n(2))),
            "pieces" => return (Call::Pieces(range(&words[2..]), n(5)), self.over_list(Direction::Receive, n(1), 0)),
            "prepare" => Call::Prepare { pushed: true },
            "available" => Call::Available,
            "peek" => Call::Peek,
            "peek_until_eof" => Call::PeekUntilEof,
            "consume" => Call::Consume(n(1)),
            "pop" => Call::Pop,
            "prefill" => Call::Prefill(data),
            "offer_prefill" => Call::OfferPrefill,
            "commit_prefill" => Call::CommitPrefill(n(1)),
            "push" => Call::Push(data),
            "offer" => Call::Offer,
            "commit" => Call::Commit(n(1)),
            "advance" => Call::Advance(n(1)),
            "fill" => Call::Fill(data, words.len() > 2),
            "send" => Call::Send,
            "align" => Call::Align(align(&words[1..])),
            "cut" => Call::Cut(range(&words[1..])),
            other => panic!("no command: {other}"),
        };
        (call, ring)
    }
}

/// The bytes that a command brings.
pub fn data(words: &[&str]) -> Vec<u8> {
    if matches!(words[0], "prefill" | "push" | "fill") { bytes(words[1]) } else { Vec::new() }
}
