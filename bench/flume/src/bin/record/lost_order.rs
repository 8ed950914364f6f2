//! A run in which flume 0.12.0 hands out a message before an older one.

use crate::log::{Clock, Log, recording};
use flume::{Receiver, Sender};
use std::future::Future;
use std::pin::Pin;
use std::task::{Context, Waker};
use std::thread;
use std::time::Duration;

/// How long a thread surely needs at most until it waits.
const LONG: Duration = Duration::from_millis(500);

/// A future waits, and behind it a thread; then two messages are sent. The first one is for the
/// future, which isn't polled any more, and the thread gets the second one.
pub fn lost_order() -> String {
    let log = Log::new(&Clock::default());
    let (sender, receiver) = flume::unbounded();
    log.begin("f", "recv_async");
    let mut future = receiver.recv_async();
    let _ = Pin::new(&mut future).poll(&mut Context::from_waker(Waker::noop()));
    thread::scope(|threads| {
        threads.spawn(|| receive(&log, &receiver));
        thread::sleep(LONG);
        send_two(&log, &sender);
    });
    try_receive(&log, &receiver);
    drop(future);
    log.end("f", "dropped");
    recording(None, &[log])
}

fn receive(log: &Log, receiver: &Receiver<u64>) {
    log.begin("r", "recv");
    let message = receiver.recv().expect("a sender is left");
    log.end("r", format_args!("got {message}"));
}

fn send_two(log: &Log, sender: &Sender<u64>) {
    for message in [1, 2] {
        log.begin("s", format_args!("send {message}"));
        sender.send(message).expect("a receiver is left");
        log.end("s", "sent");
    }
}

fn try_receive(log: &Log, receiver: &Receiver<u64>) {
    log.begin("t", "try_recv");
    let answer = receiver.try_recv();
    log.end(
        "t",
        answer.map_or("empty".into(), |message| format!("got {message}")),
    );
}
