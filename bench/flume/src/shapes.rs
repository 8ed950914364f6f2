//! The shapes of blocking calls, over the channels of the program that includes this file; each by
//! the sum of what it receives. And what such a program does with its words.

use super::{Receiver, RecvError, SendError, Sender};
use std::env;
use std::process::ExitCode;
use std::thread;
use std::time::Duration;

/// How many threads send, and how many receive, if several do.
pub const SEVERAL: usize = 4;

pub type Ends = (Sender<usize>, Receiver<usize>);

/// All sent, and then all received.
pub fn seq((sender, receiver): &Ends, messages: usize) -> usize {
    send_each(sender, messages);
    receive_each(receiver, messages)
}

/// Half of them sent and received in turn, and then the others sent, and taken by an iterator.
pub fn plain(ends: &Ends, messages: usize) -> usize {
    in_turn(ends, messages / 2)
        .and_then(|sum| Ok(sum.wrapping_add(at_once(ends, messages / 2)?)))
        .expect("a channel of which both ends are there")
}

/// Each message sent, and received before the next.
pub fn inout(ends: &Ends, messages: usize) -> usize {
    (0..messages).fold(0, |sum, message| sum.wrapping_add(pass(ends, message)))
}

/// The same by the calls that don't wait.
pub fn try_pair((sender, receiver): &Ends, messages: usize) -> usize {
    let mut sum = 0usize;
    for message in 0..messages {
        if sender.try_send(message).is_ok() {
            sum = sum.wrapping_add(receiver.try_recv().unwrap_or(0));
        }
    }
    sum
}

/// For each message a channel made, the message sent and received, and both ends dropped.
pub fn oneshot(open: impl Fn() -> Ends, messages: usize) -> usize {
    (0..messages).fold(0, |sum, message| sum.wrapping_add(pass(&open(), message)))
}

/// So many threads send, and this one receives.
pub fn to_one((sender, receiver): Ends, senders: usize, messages: usize) -> usize {
    let each = messages / senders;
    thread::scope(|scope| {
        for _ in 0..senders {
            let sender = sender.clone();
            scope.spawn(move || send_each(&sender, each));
        }
        drop(sender);
        receive_each(&receiver, each * senders)
    })
}

/// Four threads send, and four receive.
pub fn to_several((sender, receiver): Ends, messages: usize) -> usize {
    let each = messages / SEVERAL;
    thread::scope(|scope| {
        let mut threads = Vec::new();
        for _ in 0..SEVERAL {
            let (sender, receiver) = (sender.clone(), receiver.clone());
            scope.spawn(move || send_each(&sender, each));
            threads.push(scope.spawn(move || receive_each(&receiver, each)));
        }
        drop(sender);
        let sums = threads
            .into_iter()
            .map(|thread| thread.join().expect("a receiver's sum"));
        sums.fold(0, usize::wrapping_add)
    })
}

/// The message that was sent and then received; 0 if none was.
fn pass((sender, receiver): &Ends, message: usize) -> usize {
    match sender.send(message) {
        Ok(()) => receiver.recv().unwrap_or(0),
        Err(_) => 0,
    }
}

/// Sends 0, 1, 2 and so on.
pub fn send_each(sender: &Sender<usize>, messages: usize) {
    for message in 0..messages {
        if sender.send(message).is_err() {
            return;
        }
    }
}

/// The sum of so many messages, or of those that come.
fn receive_each(receiver: &Receiver<usize>, messages: usize) -> usize {
    let mut sum = 0usize;
    for _ in 0..messages {
        match receiver.recv() {
            Ok(message) => sum = sum.wrapping_add(message),
            Err(_) => return sum,
        }
    }
    sum
}

/// What may go wrong in a user's loop.
#[derive(Debug)]
enum Problem {
    NotSent,
    NotReceived,
}

impl From<SendError<usize>> for Problem {
    fn from(_: SendError<usize>) -> Problem {
        Problem::NotSent
    }
}

impl From<RecvError> for Problem {
    fn from(_: RecvError) -> Problem {
        Problem::NotReceived
    }
}

fn in_turn((sender, receiver): &Ends, messages: usize) -> Result<usize, Problem> {
    let mut sum = 0usize;
    for message in 0..messages {
        sender.send(message)?;
        sum = sum.wrapping_add(receiver.recv()?);
    }
    Ok(sum)
}

fn at_once((sender, receiver): &Ends, messages: usize) -> Result<usize, Problem> {
    for message in 0..messages {
        sender.send(message)?;
    }
    Ok(receiver.try_iter().fold(0, usize::wrapping_add))
}

/// Panics if so many senders didn't send this sum in all.
pub fn check_sum(sum: usize, messages: usize, senders: usize) {
    let each = (0..messages / senders).fold(0, usize::wrapping_add);
    assert_eq!(sum, each.wrapping_mul(senders), "what was received isn't what was sent");
}

/// Prints what `time` says of the program's words: a time and how many messages took it. `None`: the
/// words are wrong, or the shape can't be had at this capacity.
pub fn answer(usage: &str, time: impl Fn(&[String]) -> Option<Option<(Duration, usize)>>) -> ExitCode {
    let words: Vec<String> = env::args().skip(1).collect();
    if words.is_empty() {
        println!("{usage}");
        return ExitCode::SUCCESS;
    }
    let Some(timed) = time(&words) else {
        eprintln!("{usage}");
        return ExitCode::from(2);
    };
    let Some((time, messages)) = timed else {
        eprintln!("this shape can't be had at this capacity");
        return ExitCode::from(3);
    };
    let hundredths = time.as_nanos() * 100 / messages.max(1) as u128;
    println!("{}.{:02}", hundredths / 100, hundredths % 100);
    ExitCode::SUCCESS
}
