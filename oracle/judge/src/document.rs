//! docs/DIFFERENCES.md held against the list: a row for every difference that a run shows, and no other row; each
//! row's input shows just that difference, and no run finds it with a smaller one.

use state::Call;

use crate::differences::LIST;
use crate::rng::Rng;
use crate::rules::Rules;
use crate::runner::{Measure, Runner, measure};
use crate::runs::Size;
use crate::sample::replay::{Console, data};

const DOCUMENT: &str = include_str!("../../../docs/DIFFERENCES.md");
/// The tables of which every row is shown by the runs begin with this.
const SHOWN: &str = "| what | smallest input |";

struct Row {
    what: &'static str,
    /// Commands of the bench console, of which the last is the call. Two rows are about more than one call: what they
    /// tell has a check of its own in runs/documents.rs, and they have no commands.
    input: Option<&'static str>,
}

fn rows() -> Vec<Row> {
    let mut rows = Vec::new();
    let mut shown = false;
    for line in DOCUMENT.lines() {
        if !line.starts_with('|') || line.starts_with(SHOWN) {
            shown = line.starts_with(SHOWN);
        } else if shown && !line.starts_with("|---") {
            let mut cells = line.split('|').skip(1).map(str::trim);
            let (what, input) = (cells.next().unwrap_or(""), cells.next().unwrap_or(""));
            rows.push(Row { what, input: input.split('`').nth(1) });
        }
    }
    rows
}

/// The difference that a row is about.
fn name(row: &Row) -> Option<&'static str> {
    LIST.iter().copied().find(|name| name.split(':').next() == Some(row.what))
}

/// Asks every row's input of every voice.
pub fn run(runner: &mut Runner, _: Size, _: &Rng) {
    for row in rows() {
        let (Some(name), Some(input)) = (name(&row), row.input) else { continue };
        let before = count(runner, name);
        ask(runner, input);
        let shows = runner.rust.is_none() || count(runner, name) > before;
        runner.claim(shows, &format!("docs/DIFFERENCES.md: `{input}` shows: {name}"));
    }
}

fn count(runner: &Runner, name: &str) -> u64 {
    runner.listed.get(name).map_or(0, |seen| seen.count)
}

fn ask(runner: &mut Runner, input: &str) -> Measure {
    let lines: Vec<&str> = input.split("; ").collect();
    let (last, first) = lines.split_last().expect("there is a command");
    let mut console = Console::new(Box::new(Rules));
    for line in first {
        console.answer(line);
    }
    let words: Vec<&str> = last.split(' ').collect();
    let data = data(&words);
    let (mut call, state) = console.asked(&words, &data);
    if let Call::Prepare { pushed } = &mut call {
        *pushed = first.iter().any(|line| line.contains("prefill"));
    }
    runner.check(call, &state);
    measure(&call, &state)
}

/// Records, buffer and request: what else is set in a state does not make it larger here.
fn size(measure: Measure) -> (usize, usize, usize) {
    (measure.0, measure.1, measure.2)
}

/// Prints where the document and the list part. Answers whether they agree.
pub fn agrees(runner: &Runner) -> bool {
    let rows = rows();
    let mut faults = Vec::new();
    for name in LIST {
        let of = rows.iter().filter(|row| self::name(row) == Some(name)).count();
        if of != 1 {
            faults.push(format!("{of} rows, not one: {name}"));
        }
    }
    for row in &rows {
        match (name(row), row.input) {
            (None, _) => faults.push(format!("a row that no run shows: {}", row.what)),
            (Some(name), Some(input)) => {
                let given = size(ask(&mut Runner::new(None, None), input));
                if let Some(seen) = runner.listed.get(name).filter(|seen| size(seen.smallest) < given) {
                    faults.push(format!("a smaller input than its `{input}`: {}", seen.input));
                }
            }
            _ => {}
        }
    }
    for fault in &faults {
        println!("docs/DIFFERENCES.md: {fault}");
    }
    if faults.is_empty() {
        let shown = if runner.rust.is_some() { "each shown by its input, no smaller one found" } else { "as listed, none of them shown" };
        println!("docs/DIFFERENCES.md: {} rows, {shown}", rows.len());
    }
    faults.is_empty()
}
