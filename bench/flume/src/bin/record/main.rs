//! Runs threads on a channel of flume 0.12.0 or of crossbeam-channel, and prints what they recorded
//! of their calls, as text of `crates/judge_calls`.

mod draw;
mod ends;
mod log;
mod lost_order;
mod party;
mod run;

use lost_order::lost_order;
use run::Run;
use std::env;
use std::process::ExitCode;

const USAGE: &str = "record flume|crossbeam CAPACITY THREADS CALLS SEED
record lost_order

Prints the recording of a run of so many threads, which make so many calls in all. CAPACITY is
unbounded, or a number; there are two threads or more. The seed says which calls are made; what they
answer, and in which order, is another thing each time. A call that hangs has no answer in it.
lost_order is a run in which flume 0.12.0 hands out a message before an older one.";

fn read_run(words: &[String]) -> Option<Run> {
    let [capacity, threads, calls, seed] = words else {
        return None;
    };
    let capacity = match capacity.as_str() {
        "unbounded" => None,
        number => Some(number.parse().ok()?),
    };
    let run = Run {
        capacity,
        threads: threads.parse().ok()?,
        calls: calls.parse().ok()?,
        seed: seed.parse().ok()?,
    };
    (run.threads >= 2).then_some(run)
}

fn recorded(library: &str, run: &Run) -> Option<String> {
    match (library, run.capacity) {
        ("flume", None) => Some(run.recorded(flume::unbounded())),
        ("flume", Some(capacity)) => Some(run.recorded(flume::bounded(capacity))),
        ("crossbeam", None) => Some(run.recorded(crossbeam_channel::unbounded())),
        ("crossbeam", Some(capacity)) => Some(run.recorded(crossbeam_channel::bounded(capacity))),
        _ => None,
    }
}

fn asked_for(words: &[String]) -> Option<String> {
    match words {
        [word] if word == "lost_order" => Some(lost_order()),
        [library, run @ ..] => recorded(library, &read_run(run)?),
        [] => None,
    }
}

fn main() -> ExitCode {
    let words: Vec<String> = env::args().skip(1).collect();
    match asked_for(&words) {
        Some(recording) => {
            print!("{recording}");
            ExitCode::SUCCESS
        }
        None => {
            eprintln!("{USAGE}");
            ExitCode::from(2)
        }
    }
}
