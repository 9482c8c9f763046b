//! What is timed. A task sets its ring up, and then runs for the clock; it answers how many calls it made.

use state::Side;

pub const RECORDS: usize = 64;
pub const LENGTH: usize = 64_000;
const REPEATS: usize = 200;

pub struct Task {
    pub name: String,
    pub set_up: fn(&mut dyn Side),
    pub run: Box<dyn FnMut(&mut dyn Side) -> usize>,
}

fn task(name: String, set_up: fn(&mut dyn Side), run: impl FnMut(&mut dyn Side) -> usize + 'static) -> Task {
    Task { name, set_up, run: Box::new(run) }
}

/// Every request size for the calls that move bytes, then the calls that only ask.
pub fn all() -> Vec<Task> {
    let mut tasks = Vec::new();
    for request in [7, 256, 60_000] {
        let mut destination = vec![0; request];
        let data = vec![0xA5; request];
        tasks.push(task(format!("pop {request}"), |s| s.fill(), move |s| s.drain_by_pop(&mut destination)));
        tasks.push(task(format!("consume {request}"), |s| s.fill(), move |s| s.drain_by_consume(request)));
        tasks.push(task(format!("push {request}"), |s| s.clear(), move |s| s.fill_by_push(&data)));
        tasks.push(task(format!("advance {request}"), |s| s.clear(), move |s| s.fill_by_advance(request, LENGTH)));
    }
    tasks.push(task("receive available_bytes, all full".into(), |s| s.fill(), |s| asked(s.repeat_rx_available(REPEATS))));
    tasks.push(task("transmit available_bytes, all free".into(), |s| s.clear(), |s| asked(s.repeat_tx_available(REPEATS))));
    tasks.push(task("peek, all full".into(), |s| s.fill(), |s| asked(s.repeat_peek(REPEATS))));
    tasks
}

/// The answers are even numbers of bytes; looking at them keeps the calls from being dropped.
fn asked(odd: usize) -> usize {
    assert_eq!(odd, 0, "an answer that this ring cannot give");
    REPEATS
}
