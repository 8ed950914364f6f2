//! What the threads of a run record, and the recording that is made of it.

use std::fmt::Display;
use std::sync::atomic::{AtomicU64, Ordering};
use std::sync::{Arc, Mutex, PoisonError};

/// The counter of a run, which all its threads share: its numbers are in the order of time.
#[derive(Clone, Default)]
pub struct Clock {
    next: Arc<AtomicU64>,
}

impl Clock {
    pub fn now(&self) -> u64 {
        self.next.fetch_add(1, Ordering::SeqCst)
    }
}

/// What one thread recorded. It has a lock since the main thread reads it if a call hangs.
#[derive(Clone)]
pub struct Log {
    clock: Clock,
    lines: Arc<Mutex<Vec<(u64, String)>>>,
}

impl Log {
    pub fn new(clock: &Clock) -> Log {
        Log {
            clock: clock.clone(),
            lines: Arc::default(),
        }
    }

    fn push(&self, time: u64, line: String) {
        let lines = self.lines.lock();
        let mut lines = lines.unwrap_or_else(PoisonError::into_inner);
        lines.push((time, line));
    }

    pub fn begin(&self, name: &str, call: impl Display) {
        let line = format!("{name}: {call}");
        self.push(self.clock.now(), line);
    }

    pub fn end(&self, name: &str, answer: impl Display) {
        let time = self.clock.now();
        self.push(time, format!("{name} -> {answer}"));
    }
}

fn merged(logs: &[Log]) -> Vec<(u64, String)> {
    let mut lines = Vec::new();
    for log in logs {
        let own = log.lines.lock().unwrap_or_else(PoisonError::into_inner);
        lines.extend(own.iter().cloned());
    }
    lines.sort();
    lines
}

pub fn recording(capacity: Option<usize>, logs: &[Log]) -> String {
    let mut text = match capacity {
        None => String::from("unbounded\n"),
        Some(capacity) => format!("bounded {capacity}\n"),
    };
    for (_, line) in merged(logs) {
        text.push_str(&line);
        text.push('\n');
    }
    text
}
