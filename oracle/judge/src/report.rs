//! What a run prints.

use state::NAMES;

use crate::differences::LIST;
use crate::runner::Runner;

pub fn sources() {
    if !esp::AVAILABLE {
        println!("the Rust's text is absent ({}): no call was compared with the Rust, no listed difference was shown", esp::WHY);
        return;
    }
    for (file, sum) in esp::FILES {
        let items = esp::ITEMS.iter().filter(|item| item.0 == *file).count();
        println!("the Rust: {items} items of {file}, sha256 {sum}");
    }
}

pub fn items() {
    sources();
    for (file, header, from, to) in esp::ITEMS {
        println!("  {file} {from}-{to}: {header}");
    }
}

pub fn counts(runner: &Runner) {
    println!("{:34} {:>12} {:>12} {:>12}", "call", "cases", "with Rust", "with ours");
    for (name, count) in NAMES.iter().zip(&runner.counts) {
        println!("{name:34} {:>12} {:>12} {:>12}", count.cases, count.rust, count.ours);
    }
    println!("{} comparisons", runner.comparisons());
}

/// Every listed difference must have been shown. Answers whether all were.
pub fn differences(runner: &Runner) -> bool {
    let mut complete = true;
    println!("differences, each just as listed:");
    for name in LIST {
        match runner.listed.get(name) {
            Some(seen) => println!("  {:>9}  {name}\n             {}", seen.count, shortened(&seen.input)),
            None => {
                println!("  NOT SHOWN  {name}");
                complete = false;
            }
        }
    }
    complete
}

fn shortened(input: &str) -> String {
    let most = 400;
    if input.chars().count() <= most { input.into() } else { input.chars().take(most).chain("..".chars()).collect() }
}

pub fn mismatch(runner: &Runner) {
    if let Some((_, text)) = &runner.worst {
        println!("MISMATCH ({} in all), the smallest found:\n{text}", runner.mismatches);
    }
}
