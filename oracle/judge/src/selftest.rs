//! Proof that the judge can say no: wrong answers are planted over a right voice, one at a time, and each must be
//! caught by the runs as they are.

use std::process::ExitCode;

use state::{Answer, Call, NAMES, State, Voice};

use crate::mutants::{MUTANTS, Mutant};
use crate::rng::Rng;
use crate::rules::Rules;
use crate::runner::Runner;
use crate::runs::{RUNS, SMALL};

/// A right voice with one fault planted over it.
struct Faulty {
    right: Box<dyn Voice>,
    mutant: &'static Mutant,
}

impl Voice for Faulty {
    fn call(&mut self, call: &Call, state: &mut State) -> Answer {
        if call.index(state.direction) != self.mutant.call {
            return self.right.call(call, state);
        }
        let before = state.clone();
        let mut answer = self.right.call(call, state);
        (self.mutant.fault)(call, &before, &mut answer, state);
        answer
    }
}

pub fn run(seed: u64) -> ExitCode {
    let over = if ciramohir::LINKED { "our library" } else { "the rules (our library is not linked)" };
    println!("{} wrong answers, planted over {over}:", MUTANTS.len());
    let caught = MUTANTS.iter().filter(|mutant| plant(mutant, seed)).count();
    println!("{caught} of {} caught", MUTANTS.len());
    let calls: std::collections::BTreeSet<usize> = MUTANTS.iter().map(|mutant| mutant.call).collect();
    for (index, name) in NAMES.iter().enumerate().filter(|(index, _)| !calls.contains(index)) {
        println!("no fault is planted in call {index}, {name}");
    }
    if caught == MUTANTS.len() && calls.len() == NAMES.len() { ExitCode::SUCCESS } else { ExitCode::from(1) }
}

fn plant(mutant: &'static Mutant, seed: u64) -> bool {
    let right = crate::ours::voice().unwrap_or(Box::new(Rules));
    let mut runner = Runner::new(None, Some(Box::new(Faulty { right, mutant })));
    runner.stop_at_first = true;
    let rng = Rng::new(seed);
    for (_, run) in RUNS {
        if !runner.done() {
            run(&mut runner, SMALL, &rng);
        }
    }
    let asked: u64 = runner.counts.iter().map(|count| count.ours).sum();
    let name = NAMES[mutant.call];
    match &runner.worst {
        Some((_, text)) => {
            let why = text.lines().last().unwrap_or_default().trim();
            println!("  caught within {asked:>8} comparisons: {name}, {}: {why}", mutant.kind);
            true
        }
        None => {
            println!("  NOT CAUGHT in {asked} comparisons: {name}, {}", mutant.kind);
            false
        }
    }
}
