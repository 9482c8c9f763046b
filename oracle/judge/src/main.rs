//! The judge: holds our library against the Rust's own text and against document 01's rules.

mod differences;
mod document;
mod faults;
mod mutants;
mod ours;
mod report;
mod rng;
mod rules;
mod runner;
mod runs;
mod sample;
mod selftest;
mod states;

use std::process::ExitCode;
use std::time::Instant;

use rng::Rng;
use runner::Runner;
use runs::{LONG, QUICK, RUNS, Size};

const SEED: u64 = 0x0120_2201;

struct Options {
    size: Size,
    seed: u64,
    shape: esp::Shape,
    task: Task,
}

enum Task {
    Compare,
    Items,
    Selftest,
    Sample(String),
    Replay(String),
}

fn options() -> Result<Options, String> {
    let mut options = Options { size: LONG, seed: SEED, shape: esp::Shape::Plain, task: Task::Compare };
    let mut args = std::env::args().skip(1);
    while let Some(arg) = args.next() {
        match arg.as_str() {
            "--quick" => options.size = QUICK,
            "--bits" => options.shape = esp::Shape::Bits,
            "--items" => options.task = Task::Items,
            "--selftest" => options.task = Task::Selftest,
            "--replay" => options.task = Task::Replay(args.next().ok_or("--replay wants a file's name")?),
            "--sample" => options.task = Task::Sample(args.next().ok_or("--sample wants a file's name")?),
            "--seed" => options.seed = args.next().and_then(|s| s.parse().ok()).ok_or("--seed wants a number")?,
            other => return Err(format!("unknown option {other}")),
        }
    }
    Ok(options)
}

fn main() -> ExitCode {
    let options = match options() {
        Ok(options) => options,
        Err(why) => {
            eprintln!("judge: {why}");
            return ExitCode::from(2);
        }
    };
    keep_quiet_about_the_text();
    match options.task {
        Task::Compare => compare(&options),
        Task::Selftest => selftest::run(options.seed),
        Task::Replay(ref file) => sample::replay::run(file),
        Task::Sample(ref file) => sample::write(file, options.seed),
        Task::Items => {
            report::items();
            ExitCode::SUCCESS
        }
    }
}

/// The text's panics are answers here, not news; all others are told.
fn keep_quiet_about_the_text() {
    let told = std::panic::take_hook();
    std::panic::set_hook(Box::new(move |panic| {
        if !panic.location().is_some_and(|place| esp::is_text(place.file())) {
            told(panic);
        }
    }));
}

fn compare(options: &Options) -> ExitCode {
    report::sources();
    let mut runner = Runner::new(esp::voice(options.shape), ours::voice());
    if runner.ours.is_none() {
        println!("our library is not linked: no call of ours was compared");
    }
    println!("seed {}, records of the Rust: {:?}", options.seed, options.shape);
    let rng = Rng::new(options.seed);
    for (name, run) in RUNS {
        let (start, before, claims) = (Instant::now(), runner.comparisons(), runner.claims);
        run(&mut runner, options.size, &rng);
        let (compared, claimed, took) = (runner.comparisons() - before, runner.claims - claims, start.elapsed().as_secs_f32());
        let counts =
            [(compared, "comparisons"), (claimed, "claims")].map(|(n, what)| if n > 0 { format!("{n} {what}, ") } else { String::new() });
        println!("{name}: {}{took:.1} s", counts.concat());
    }
    report::counts(&runner);
    let complete = runner.rust.is_none() || report::differences(&runner);
    let documented = document::agrees(&runner);
    report::mismatch(&runner);
    if runner.mismatches > 0 || !complete || !documented {
        return ExitCode::from(1);
    }
    println!("{}", if runner.comparisons() > 0 { "no mismatch" } else { "nothing was compared" });
    ExitCode::SUCCESS
}
