//! The timing driver: every side does the same task in turn, many rounds, and the least of each counts.

#[cfg(by_value)]
mod by_value;
mod ours;
mod tasks;

use std::time::{Duration, Instant};

use state::Side;
use tasks::{LENGTH, RECORDS, Task};

/// So many rounds for each task, or as many as fit its time.
const ROUNDS: usize = 2_000;
const BUDGET: Duration = Duration::from_secs(4);

/// Nanoseconds a call, and the calls made.
#[derive(Clone, Copy)]
struct Least {
    nanos: f64,
    calls: usize,
}

fn once(task: &mut Task, side: &mut dyn Side) -> Least {
    (task.set_up)(side);
    let start = Instant::now();
    let calls = (task.run)(side);
    let nanos = start.elapsed().as_nanos() as f64 / calls as f64;
    Least { nanos, calls }
}

fn rounds(task: &mut Task, sides: &mut [Box<dyn Side>]) -> Vec<Least> {
    let mut least: Vec<Least> = sides.iter_mut().map(|side| once(task, side.as_mut())).collect();
    let start = Instant::now();
    for _ in 1..ROUNDS {
        if start.elapsed() > BUDGET {
            break;
        }
        for (least, side) in least.iter_mut().zip(sides.iter_mut()) {
            let this = once(task, side.as_mut());
            assert_eq!(least.calls, this.calls, "{}: a round that differs from the first", task.name);
            least.nanos = least.nanos.min(this.nanos);
        }
    }
    let calls = least[0].calls;
    assert!(least.iter().all(|side| side.calls == calls), "{}: the sides differ in their number of calls", task.name);
    least
}

/// What is timed: the Rust's sides come first, and its first one is what ours are divided by.
struct Table {
    sides: Vec<Box<dyn Side>>,
    theirs: usize,
}

impl Table {
    fn header(&self) -> String {
        let first = self.sides[0].name();
        let ratios: String = self.sides[self.theirs..].iter().map(|side| format!(" {} / {first} |", side.name())).collect();
        let times: String = self.sides.iter().map(|side| format!(" {}, ns |", side.name())).collect();
        let columns = 2 + 2 * self.sides.len() - self.theirs;
        format!("| call |{ratios}{times} calls |\n|{}", "---|".repeat(columns))
    }

    /// Ratios, then nanoseconds a call.
    fn row(&self, name: &str, least: &[Least]) -> String {
        let ratios: String = least[self.theirs..].iter().map(|side| format!(" {:.2} |", side.nanos / least[0].nanos)).collect();
        let times: String = least.iter().map(|side| format!(" {:.1} |", side.nanos)).collect();
        format!("| {name} |{ratios}{times} {} |", least[0].calls)
    }
}

fn main() {
    let mut sides = esp::sides(RECORDS, LENGTH);
    if sides.is_empty() {
        println!("the Rust's text is absent ({}): nothing is timed against it", esp::WHY);
    }
    let theirs = sides.len();
    let mine = ours::sides(RECORDS, LENGTH);
    if mine.is_empty() {
        println!("our library is not linked: only the Rust is timed");
    }
    sides.extend(mine);
    if sides.is_empty() {
        return;
    }
    let mut table = Table { sides, theirs };
    println!("{RECORDS} records over {LENGTH} bytes; up to {ROUNDS} rounds, every side in turn in each, the least of each side's.\n");
    println!("{}", table.header());
    for mut task in tasks::all() {
        let least = rounds(&mut task, &mut table.sides);
        println!("{}", table.row(&task.name, &least));
    }
}
