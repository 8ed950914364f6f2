//! Answers scripts of steps with flume 0.12.0 itself, one step after the other, on one thread.
//!
//! `flume_answers FILE` reads a file of the form of `crates/test_replay/data/scripts.txt`: lines
//! before the first block, and then blocks of a line `= number`, the script, a line `-`, and
//! replies. It prints the file with flume's replies. README.md says which steps no call of flume
//! stands for.

use flume::r#async::{RecvFut, RecvStream, SendFut};
use flume::{Receiver, RecvError, Sender, TryRecvError, TrySendError};
use futures_core::Stream;
use std::collections::BTreeMap;
use std::env;
use std::fs;
use std::future::Future;
use std::io::{self, Write};
use std::pin::Pin;
use std::process::ExitCode;
use std::task::{Context, Poll, Waker};

struct Senders<'s> {
    /// The one that the blocked sends borrow; it goes last.
    first: Option<&'s Sender<u64>>,
    others: Vec<Sender<u64>>,
    blocked: BTreeMap<u64, (u64, SendFut<'s, u64>)>,
}

struct Receivers<'r> {
    /// The one that the parked ones borrow; it goes last.
    first: Option<&'r Receiver<u64>>,
    others: Vec<Receiver<u64>>,
    parked: BTreeMap<u64, Parked<'r>>,
}

enum Parked<'r> {
    Plain(RecvFut<'r, u64>),
    Stream(RecvStream<'r, u64>),
}

/// A channel of flume, and the tickets of the sends and receives that wait on it.
struct Channel<'s, 'r> {
    capacity: Option<usize>,
    last_ticket: u64,
    senders: Senders<'s>,
    receivers: Receivers<'r>,
}

/// How far a list of steps went.
enum Stop {
    Done,
    /// The last sender, or the last receiver, is to go now.
    LastSender,
    LastReceiver,
    /// The next step can't be done with flume, for this reason.
    CantBeDone(&'static str),
}

fn context() -> Context<'static> {
    Context::from_waker(Waker::noop())
}

impl<'s> Senders<'s> {
    fn of(first: Option<&'s Sender<u64>>) -> Senders<'s> {
        Senders {
            first,
            others: Vec::new(),
            blocked: BTreeMap::new(),
        }
    }

    fn count(&self) -> usize {
        self.others.len() + usize::from(self.first.is_some())
    }
}

impl<'r> Receivers<'r> {
    fn of(first: Option<&'r Receiver<u64>>) -> Receivers<'r> {
        Receivers {
            first,
            others: Vec::new(),
            parked: BTreeMap::new(),
        }
    }

    fn count(&self) -> usize {
        self.others.len() + usize::from(self.first.is_some())
    }
}

impl Parked<'_> {
    /// The next poll: `Some` of what the receiver got, `None` of the end.
    fn poll(&mut self) -> Poll<Option<u64>> {
        match self {
            Parked::Plain(future) => match Pin::new(future).poll(&mut context()) {
                Poll::Ready(Ok(message)) => Poll::Ready(Some(message)),
                Poll::Ready(Err(RecvError::Disconnected)) => Poll::Ready(None),
                Poll::Pending => Poll::Pending,
            },
            Parked::Stream(stream) => Pin::new(stream).poll_next(&mut context()),
        }
    }
}

impl<'s, 'r> Channel<'s, 'r> {
    /// A channel of which both ends are gone.
    fn over(capacity: Option<usize>) -> Channel<'s, 'r> {
        let (senders, receivers) = (Senders::of(None), Receivers::of(None));
        Channel {
            capacity,
            last_ticket: 0,
            senders,
            receivers,
        }
    }

    fn without_senders<'n>(self) -> Channel<'n, 'r> {
        Channel {
            capacity: self.capacity,
            last_ticket: self.last_ticket,
            senders: Senders::of(None),
            receivers: self.receivers,
        }
    }

    fn without_receivers<'n>(self) -> Channel<'s, 'n> {
        Channel {
            capacity: self.capacity,
            last_ticket: self.last_ticket,
            senders: self.senders,
            receivers: Receivers::of(None),
        }
    }

    fn sender(&self) -> Result<&'s Sender<u64>, Stop> {
        let none = Stop::CantBeDone("no sender is left");
        self.senders.first.ok_or(none)
    }

    fn receiver(&self) -> Result<&'r Receiver<u64>, Stop> {
        let none = Stop::CantBeDone("no receiver is left");
        self.receivers.first.ok_or(none)
    }

    fn is_closed(&self) -> bool {
        match (self.senders.first, self.receivers.first) {
            (Some(sender), _) => sender.is_disconnected(),
            (None, Some(receiver)) => receiver.is_disconnected(),
            (None, None) => true,
        }
    }

    fn next_ticket(&mut self) -> u64 {
        self.last_ticket += 1;
        self.last_ticket
    }

    /// Does the steps, up to the first that takes the last end of a side, or that can't be done.
    fn do_steps<'l>(
        &mut self,
        steps: &mut impl Iterator<Item = &'l str>,
        replies: &mut Vec<String>,
    ) -> Stop {
        for step in steps {
            match self.do_step(step) {
                Ok(reply) => replies.push(reply),
                Err(stop) => return stop,
            }
        }
        Stop::Done
    }

    fn do_step(&mut self, step: &str) -> Result<String, Stop> {
        let (word, rest) = step.split_once(' ').unwrap_or((step, ""));
        let number = rest.parse().unwrap_or(0);
        match word {
            "try_send" => self.try_send(number),
            "send" => self.send(number),
            "poll_send" => Ok(self.poll_send(number)),
            "withdraw_send" => Ok(self.withdraw_send(number)),
            "try_recv" => self.try_recv(),
            "recv" => self.recv(rest),
            "poll" => Ok(self.poll(number)),
            "withdraw" => Ok(self.withdraw(number)),
            "drain" => self.drain(),
            "clone_sender" => Ok(match self.senders.first {
                Some(first) => {
                    self.senders.others.push(first.clone());
                    "done".into()
                }
                None => "noend".into(),
            }),
            "clone_receiver" => Ok(match self.receivers.first {
                Some(first) => {
                    self.receivers.others.push(first.clone());
                    "done".into()
                }
                None => "noend".into(),
            }),
            "drop_sender" => self.drop_sender(),
            "drop_receiver" => self.drop_receiver(),
            _ => self.query(word),
        }
    }

    fn try_send(&mut self, message: u64) -> Result<String, Stop> {
        let sender = self.sender()?;
        Ok(match sender.try_send(message) {
            Ok(()) => "sent".into(),
            Err(TrySendError::Full(back)) => format!("full {back}"),
            Err(TrySendError::Disconnected(back)) => format!("closed {back}"),
        })
    }

    /// A send future, polled once.
    fn send(&mut self, message: u64) -> Result<String, Stop> {
        let sender = self.sender()?;
        let mut future = sender.send_async(message);
        Ok(match Pin::new(&mut future).poll(&mut context()) {
            Poll::Ready(Ok(())) => "sent".into(),
            Poll::Ready(Err(error)) => format!("closed {}", error.into_inner()),
            Poll::Pending => {
                let ticket = self.next_ticket();
                self.senders.blocked.insert(ticket, (message, future));
                format!("pending {ticket}")
            }
        })
    }

    /// The next poll of a blocked send; one that is done goes.
    fn poll_send(&mut self, ticket: u64) -> String {
        let Some((_, future)) = self.senders.blocked.get_mut(&ticket) else {
            return "noticket".into();
        };
        match Pin::new(future).poll(&mut context()) {
            Poll::Pending => "waiting".into(),
            Poll::Ready(result) => {
                self.senders.blocked.remove(&ticket);
                match result {
                    Ok(()) => "accepted".into(),
                    Err(error) => format!("returned {} closed", error.into_inner()),
                }
            }
        }
    }

    /// A poll of a blocked send, which then goes. Its message is told from the step that sent it.
    fn withdraw_send(&mut self, ticket: u64) -> String {
        let Some(&(message, _)) = self.senders.blocked.get(&ticket) else {
            return "noticket".into();
        };
        let reply = self.poll_send(ticket);
        if reply != "waiting" {
            return reply;
        }
        self.senders.blocked.remove(&ticket);
        format!("returned {message}")
    }

    fn try_recv(&mut self) -> Result<String, Stop> {
        let receiver = self.receiver()?;
        Ok(match receiver.try_recv() {
            Ok(message) => format!("got {message}"),
            Err(TryRecvError::Empty) => "empty".into(),
            Err(TryRecvError::Disconnected) => "ended".into(),
        })
    }

    /// A receive future, or a stream, polled once.
    fn recv(&mut self, kind: &str) -> Result<String, Stop> {
        let receiver = self.receiver()?;
        let mut parked = match kind {
            "plain" => Parked::Plain(receiver.recv_async()),
            "stream" => Parked::Stream(receiver.stream()),
            _ => return Err(Stop::CantBeDone("a receiver of this kind would wait")),
        };
        Ok(match parked.poll() {
            Poll::Ready(Some(message)) => format!("got {message}"),
            Poll::Ready(None) => "ended".into(),
            Poll::Pending => {
                let ticket = self.next_ticket();
                self.receivers.parked.insert(ticket, parked);
                format!("parked {ticket}")
            }
        })
    }

    /// The next poll of a parked receiver; one that is done goes.
    fn poll(&mut self, ticket: u64) -> String {
        let Some(parked) = self.receivers.parked.get_mut(&ticket) else {
            return "noticket".into();
        };
        match parked.poll() {
            Poll::Pending => "waiting".into(),
            Poll::Ready(got) => {
                self.receivers.parked.remove(&ticket);
                match got {
                    Some(message) => format!("got {message}"),
                    None => "ended".into(),
                }
            }
        }
    }

    /// A parked receiver goes, without a poll.
    fn withdraw(&mut self, ticket: u64) -> String {
        match self.receivers.parked.remove(&ticket) {
            None => "noticket".into(),
            Some(_) if self.is_closed() => "gone closed".into(),
            Some(_) => "gone".into(),
        }
    }

    fn drain(&mut self) -> Result<String, Stop> {
        let receiver = self.receiver()?;
        let mut reply = String::from("drained");
        for message in receiver.drain() {
            reply.push_str(&format!(" {message}"));
        }
        Ok(reply)
    }

    fn drop_sender(&mut self) -> Result<String, Stop> {
        if self.senders.others.pop().is_some() {
            return Ok("done".into());
        }
        if self.senders.first.is_none() {
            return Ok("noend".into());
        }
        Err(if self.senders.blocked.is_empty() {
            Stop::LastSender
        } else {
            Stop::CantBeDone("a blocked send has the last sender")
        })
    }

    fn drop_receiver(&mut self) -> Result<String, Stop> {
        if self.receivers.others.pop().is_some() {
            return Ok("done".into());
        }
        if self.receivers.first.is_none() {
            return Ok("noend".into());
        }
        Err(if self.receivers.parked.is_empty() {
            Stop::LastReceiver
        } else {
            Stop::CantBeDone("a parked receiver has the last receiver")
        })
    }

    /// A query, at whichever end is left. With none left flume can't be asked.
    fn query(&self, word: &str) -> Result<String, Stop> {
        macro_rules! ask {
            ($call:ident, $over:expr) => {
                match (self.senders.first, self.receivers.first) {
                    (Some(sender), _) => sender.$call(),
                    (None, Some(receiver)) => receiver.$call(),
                    (None, None) => $over,
                }
            };
        }
        Ok(match word {
            "len" => ask!(len, 0).to_string(),
            "is_empty" => ask!(is_empty, true).to_string(),
            "is_full" => ask!(is_full, self.capacity == Some(0)).to_string(),
            "capacity" => match ask!(capacity, self.capacity) {
                None => "none".into(),
                Some(capacity) => capacity.to_string(),
            },
            "sender_count" => ask!(sender_count, self.senders.count()).to_string(),
            "receiver_count" => ask!(receiver_count, self.receivers.count()).to_string(),
            "is_disconnected" => self.is_closed().to_string(),
            _ => return Err(Stop::CantBeDone("no such step")),
        })
    }
}

fn open(line: &str) -> Option<(Option<usize>, Sender<u64>, Receiver<u64>)> {
    if line == "unbounded" {
        let (sender, receiver) = flume::unbounded();
        return Some((None, sender, receiver));
    }
    let capacity = line.strip_prefix("bounded ")?.parse().ok()?;
    let (sender, receiver) = flume::bounded(capacity);
    Some((Some(capacity), sender, receiver))
}

/// What flume answers to a script. The last end of a side goes here, once nothing borrows it.
fn answers(script: &str) -> Vec<String> {
    let mut replies = Vec::new();
    let mut lines = script.lines();
    let Some((capacity, sender, receiver)) = lines.next().and_then(open) else {
        return vec!["no opening line".into()];
    };
    let mut channel = Channel {
        capacity,
        last_ticket: 0,
        senders: Senders::of(Some(&sender)),
        receivers: Receivers::of(Some(&receiver)),
    };
    let stop = match channel.do_steps(&mut lines, &mut replies) {
        Stop::LastSender => {
            let mut channel = channel.without_senders();
            drop(sender);
            replies.push("done".into());
            channel.do_steps(&mut lines, &mut replies)
        }
        Stop::LastReceiver => {
            let mut channel = channel.without_receivers();
            drop(receiver);
            replies.push("done".into());
            channel.do_steps(&mut lines, &mut replies)
        }
        stop => stop,
    };
    let stop = match stop {
        // The other side's last end goes too, and none is left to ask.
        Stop::LastSender | Stop::LastReceiver => {
            replies.push("done".into());
            Channel::over(capacity).do_steps(&mut lines, &mut replies)
        }
        stop => stop,
    };
    if let Stop::CantBeDone(reason) = stop {
        replies.push(format!("can't be done: {reason}"));
    }
    replies
}

fn answered(text: &str) -> String {
    let mut blocks = text.split("\n= ");
    let mut made = String::from(blocks.next().unwrap_or(""));
    for block in blocks {
        let (number, rest) = block.split_once('\n').unwrap_or((block, ""));
        let (script, _) = rest.split_once("\n-\n").unwrap_or((rest, ""));
        made.push_str(&format!("\n= {number}\n{script}\n-"));
        for reply in answers(script) {
            made.push_str(&format!("\n{reply}"));
        }
    }
    made.push('\n');
    made
}

fn main() -> ExitCode {
    let files: Vec<String> = env::args().skip(1).collect();
    let [file] = files.as_slice() else {
        eprintln!("usage: flume_answers FILE");
        return ExitCode::from(2);
    };
    let answered = match fs::read_to_string(file) {
        Ok(text) => answered(&text),
        Err(error) => {
            eprintln!("{file}: {error}");
            return ExitCode::FAILURE;
        }
    };
    match io::stdout().write_all(answered.as_bytes()) {
        Ok(()) => ExitCode::SUCCESS,
        Err(_) => ExitCode::FAILURE,
    }
}
