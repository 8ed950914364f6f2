//! Times Rust's crossbeam-channel in one shape, and prints nanoseconds a message. It is called as
//! `flume_times` is, and makes the same calls.

#[path = "../shapes.rs"]
mod shapes;

use crossbeam_channel::{Receiver, RecvError, SendError, Sender, bounded, select, unbounded};
use shapes::{Ends, SEVERAL, answer, check_sum, inout, oneshot, plain, send_each, seq, to_one};
use shapes::{to_several, try_pair};
use std::process::ExitCode;
use std::thread;
use std::time::{Duration, Instant};

const USAGE: &str = "crossbeam_times SHAPE CAPACITY MESSAGES

Prints how many nanoseconds a message takes. CAPACITY is unbounded, or a number. SHAPE is one of
those of flume_times: seq, plain, inout, try_pair, oneshot, spsc, mpsc, mpmc, select_seq, select_rx.";

/// What one call of the program times; a capacity of `None` is unbounded.
struct Asked {
    shape: String,
    capacity: Option<usize>,
    messages: usize,
}

impl Asked {
    fn read(words: &[String]) -> Option<Asked> {
        let [shape, capacity, messages] = words else {
            return None;
        };
        let capacity = match capacity.as_str() {
            "unbounded" => None,
            number => Some(number.parse().ok()?),
        };
        Some(Asked {
            shape: shape.clone(),
            capacity,
            messages: messages.parse().ok()?,
        })
    }

    /// Whether the shape can be had at this capacity; `None` where there is no such shape.
    fn can_be_timed(&self) -> Option<bool> {
        match self.shape.as_str() {
            "seq" | "plain" => Some(self.capacity.is_none()),
            "inout" | "try_pair" | "oneshot" | "select_seq" => Some(self.capacity != Some(0)),
            "spsc" | "mpsc" | "mpmc" | "select_rx" => Some(true),
            _ => None,
        }
    }

    fn open(&self) -> Ends {
        match self.capacity {
            None => unbounded(),
            Some(capacity) => bounded(capacity),
        }
    }

    /// The time of one run. It panics if what was received isn't what was sent.
    fn run(&self) -> Duration {
        let (messages, start) = (self.messages, Instant::now());
        let (sum, senders) = match self.shape.as_str() {
            "seq" => (seq(&self.open(), messages), 1),
            "plain" => (plain(&self.open(), messages), 2),
            "inout" => (inout(&self.open(), messages), 1),
            "try_pair" => (try_pair(&self.open(), messages), 1),
            "oneshot" => (oneshot(|| self.open(), messages), 1),
            "spsc" => (to_one(self.open(), 1, messages), 1),
            "mpsc" => (to_one(self.open(), SEVERAL, messages), SEVERAL),
            "mpmc" => (to_several(self.open(), messages), SEVERAL),
            "select_seq" => (self.select_seq(), 1),
            _ => (self.select_rx(), SEVERAL),
        };
        let time = start.elapsed();
        check_sum(sum, messages, senders);
        time
    }
}

impl Asked {
    fn open_four(&self) -> [Ends; SEVERAL] {
        [self.open(), self.open(), self.open(), self.open()]
    }

    fn select_seq(&self) -> usize {
        let channels = self.open_four();
        let mut sum = 0usize;
        for message in 0..self.messages {
            if channels[message % SEVERAL].0.send(message).is_ok() {
                sum = sum.wrapping_add(select_one(&channels));
            }
        }
        sum
    }

    fn select_rx(&self) -> usize {
        let each = self.messages / SEVERAL;
        let channels = self.open_four();
        thread::scope(|scope| {
            for (sender, _) in &channels {
                scope.spawn(move || send_each(sender, each));
            }
            (0..each * SEVERAL).fold(0usize, |sum, _| sum.wrapping_add(select_one(&channels)))
        })
    }
}

fn select_one([one, two, three, four]: &[Ends; SEVERAL]) -> usize {
    select! {
        recv(one.1) -> answer => answer.unwrap_or(0),
        recv(two.1) -> answer => answer.unwrap_or(0),
        recv(three.1) -> answer => answer.unwrap_or(0),
        recv(four.1) -> answer => answer.unwrap_or(0),
    }
}

fn main() -> ExitCode {
    answer(USAGE, |words| {
        let asked = Asked::read(words)?;
        Some(asked.can_be_timed()?.then(|| (asked.run(), asked.messages)))
    })
}
