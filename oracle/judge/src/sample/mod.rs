//! The stored sample: console commands and the answers that must come, so that the Rust's answers can be replayed
//! where there is no Rust.

mod edges;
mod fresh;
mod others;
pub mod replay;
mod script;
mod states;

use std::fs;
use std::process::ExitCode;

use crate::rng::Rng;
use script::Script;

/// Writes FILE.in and FILE.out. Every answer is checked against the Rust on the way: a mark in FILE.in says which
/// voice each comes from.
pub fn write(file: &str, seed: u64) -> ExitCode {
    let Some(rust) = esp::voice(esp::Shape::Plain) else {
        println!("the Rust's text is absent ({}): the stored sample stays as it is", esp::WHY);
        return ExitCode::SUCCESS;
    };
    let mut script = Script::new(rust);
    let rng = Rng::new(seed);
    edges::write(&mut script);
    fresh::write(&mut script);
    states::write(&mut script, &rng);
    others::write(&mut script, &rng);
    println!("{} cases, {} of them the Rust's, {} ours", script.cases, script.from_rust, script.cases - script.from_rust);
    if script.parted > 0 {
        println!("the Rust parts from the rules in {} cases: nothing is written", script.parted);
        return ExitCode::from(1);
    }
    for (ending, text) in [("in", &script.input), ("out", &script.output)] {
        let path = format!("{file}.{ending}");
        if let Err(why) = fs::write(&path, text) {
            println!("{path}: {why}");
            return ExitCode::from(1);
        }
        println!("{path}: {} lines", text.lines().count());
    }
    ExitCode::SUCCESS
}
