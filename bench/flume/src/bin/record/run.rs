//! A run: its threads, how many calls each makes, and with which ends.

use crate::draw::Draw;
use crate::ends::{ReceivingEnd, SendingEnd};
use crate::log::{Clock, Log, recording};
use crate::party::{Party, Seat};
use std::sync::{Arc, Barrier};
use std::thread::{self, JoinHandle};
use std::time::{Duration, Instant};

/// If for so long no call begins and none returns, those that are open are taken to hang.
const LONG: Duration = Duration::from_secs(3);

pub struct Run {
    pub capacity: Option<usize>,
    pub threads: usize,
    pub calls: usize,
    pub seed: u64,
}

type Hand<S, R> = (Option<S>, Option<R>);

/// Of three threads, the first one has a sender, the next one a receiver, and the last one both.
fn has_sender(thread: usize) -> bool {
    thread % 3 != 1
}

fn has_receiver(thread: usize) -> bool {
    thread % 3 != 0
}

/// A clone of an end, if it is wanted, with its record.
fn clone_if<E: Clone>(wanted: bool, log: &Log, word: &str, end: &E) -> Option<E> {
    wanted.then(|| {
        log.begin("main", word);
        let other = end.clone();
        log.end("main", "done");
        other
    })
}

fn drop_end<E>(name: &str, log: &Log, word: &str, end: Option<E>) {
    if let Some(end) = end {
        log.begin(name, word);
        drop(end);
        log.end(name, "done");
    }
}

/// What a thread does with its ends, once all threads stand at the barrier.
fn take_part<S, R>(seat: Seat, (sender, receiver): Hand<S, R>, start: &Barrier)
where
    S: SendingEnd,
    R: ReceivingEnd,
{
    let (name, log) = (seat.name.clone(), seat.log.clone());
    start.wait();
    Party::new(seat, sender.as_ref(), receiver.as_ref()).run();
    drop_end(&name, &log, "drop_sender", sender);
    drop_end(&name, &log, "drop_receiver", receiver);
}

/// Waits until all threads have ended, or until nothing happens any more. Meanwhile it wakes the
/// threads: flume may leave one asleep though its channel is closed.
fn wait_for(threads: &[JoinHandle<()>], clock: &Clock) {
    let (mut before, mut since) = (clock.now(), Instant::now());
    while since.elapsed() < LONG && threads.iter().any(|thread| !thread.is_finished()) {
        thread::sleep(LONG / 100);
        let now = clock.now();
        if now > before + 1 {
            since = Instant::now();
        } else {
            threads.iter().for_each(|thread| thread.thread().unpark());
        }
        before = now;
    }
}

impl Run {
    fn share(&self, thread: usize, before: usize) -> usize {
        let left = self.calls.saturating_sub(before);
        left / self.threads + usize::from(thread < left % self.threads)
    }

    fn seat(&self, log: &Log, thread: usize, before: usize) -> Seat {
        Seat {
            name: format!("t{thread}"),
            log: log.clone(),
            draw: Draw::new(self.seed.wrapping_mul(1000) + thread as u64),
            calls: self.share(thread, before),
            message: thread as u64 * 100_000,
        }
    }

    fn deal<S: Clone, R: Clone>(&self, log: &Log, sender: &S, receiver: &R) -> Vec<Hand<S, R>> {
        let deal = |thread| {
            let sender = clone_if(has_sender(thread), log, "clone_sender", sender);
            let receiver = clone_if(has_receiver(thread), log, "clone_receiver", receiver);
            (sender, receiver)
        };
        (0..self.threads).map(deal).collect()
    }

    /// How many calls are made by the main thread, which deals the ends and drops the first ones.
    fn dealt(&self) -> usize {
        let ends = |thread| usize::from(has_sender(thread)) + usize::from(has_receiver(thread));
        (0..self.threads).map(ends).sum::<usize>() + 2
    }

    /// Runs the threads on the channel of these ends; what they recorded.
    pub fn recorded<S, R>(&self, (sender, receiver): (S, R)) -> String
    where
        S: SendingEnd + 'static,
        R: ReceivingEnd + 'static,
    {
        let clock = Clock::default();
        let logs: Vec<Log> = (0..=self.threads).map(|_| Log::new(&clock)).collect();
        let own = &logs[self.threads];
        let start = Arc::new(Barrier::new(self.threads + 1));
        let mut threads = Vec::new();
        for (place, hand) in self.deal(own, &sender, &receiver).into_iter().enumerate() {
            let seat = self.seat(&logs[place], place, self.dealt());
            let start = Arc::clone(&start);
            threads.push(thread::spawn(move || take_part(seat, hand, &start)));
        }
        start.wait();
        drop_end("main", own, "drop_sender", Some(sender));
        drop_end("main", own, "drop_receiver", Some(receiver));
        wait_for(&threads, &clock);
        recording(self.capacity, &logs)
    }
}
