//! Times flume 0.12.0 in one shape, and prints nanoseconds a message. It is called as
//! `crates/bench_channel` is, so that `bench/compare` can let the two take turns.

#[path = "../shapes.rs"]
mod shapes;

use flume::r#async::RecvFut;
use flume::{Receiver, RecvError, Selector, SendError, Sender};
use futures::executor::block_on;
use futures::future::join;
use shapes::{Ends, SEVERAL, answer, check_sum, inout, oneshot, plain, send_each, seq, to_one};
use shapes::{to_several, try_pair};
use std::future::Future;
use std::mem;
use std::pin::Pin;
use std::process::ExitCode;
use std::task::{Context, Poll, Waker};
use std::thread;
use std::time::{Duration, Instant};

const USAGE: &str = "flume_times SHAPE CAPACITY MESSAGES [ROUNDS]

Prints how many nanoseconds a message takes, in the least of ROUNDS runs (1 where none are given).

CAPACITY   unbounded, big (as many as there are messages), or a number

SHAPE
seq             one thread sends all, and then receives all; not at a number
spsc            one thread sends, one receives
mpsc            four threads send, one receives
mpmc            four threads send, four receive
oneshot         a channel made, one message sent and received, both ends dropped; not at 0
inout           one message sent and received, again and again, by one thread; not at 0
try_pair        the same by try_send and try_recv; not at 0
try_empty       try_recv of an empty channel
try_full        try_send into a full channel; only at a number
plain           a user's loop: one half sent and received in turn, the other sent and taken by an
                iterator, with `?` and an error of its own; not at a number
poll_pair       a send polled by hand, and then a receive, each ready at once; not at 0
poll_recv_park  a receive polled, which waits, a try_send, and the receive polled again
poll_send_park  a send polled on a full channel, a try_recv, and the send polled again; only at a
                number above 0
async_pair      one message sent and received, again and again, by one task; not at 0
async_join      a future that sends all, joined in one task with one that receives all
async_ping      two threads, a task each, send half of the messages to and fro over two channels
pending         so many receives wait; then a message for each is sent, and it polled again
pending_drop    so many receives wait, and each is dropped, the newest first
select_seq      a message sent into one of four channels in turn, and received by a selection over
                the four; not at 0
select_rx       four threads send, each into a channel of its own, and one receives by selections
                over the four

SHAPE of a crowd: CAPACITY is a number above 0, and says how many stand on one channel all along;
MESSAGES says how many operations are timed, and gathering the crowd isn't
crowd_futures   a message is sent, the receive that waited longest is polled and takes it, and
                another receive is polled, which waits";

/// The time of a run, the sum of what was received, and how many senders there were.
type Timed = (Duration, usize, usize);

fn timed(senders: usize, receives: impl FnOnce() -> usize) -> Timed {
    let start = Instant::now();
    let sum = receives();
    (start.elapsed(), sum, senders)
}

/// Times one call for each message, and sums up those messages for which it does as it should.
fn counted(messages: usize, mut is_right: impl FnMut(usize) -> bool) -> Timed {
    timed(1, || {
        let mut sum = 0usize;
        for message in 0..messages {
            if is_right(message) {
                sum = sum.wrapping_add(message);
            }
        }
        sum
    })
}

#[derive(Clone, Copy, PartialEq)]
enum Capacity {
    Unbounded,
    Big,
    Of(usize),
}

struct Asked {
    shape: String,
    capacity: Capacity,
    messages: usize,
    rounds: usize,
}

impl Asked {
    fn read(words: &[String]) -> Option<Asked> {
        let (words, rounds) = match words {
            [_, _, _] => (words, 1),
            [first @ .., rounds] if first.len() == 3 => (first, rounds.parse().ok()?),
            _ => return None,
        };
        let capacity = match words[1].as_str() {
            "unbounded" => Capacity::Unbounded,
            "big" => Capacity::Big,
            number => Capacity::Of(number.parse().ok()?),
        };
        let messages = words[2].parse().ok()?;
        Some(Asked {
            shape: words[0].clone(),
            capacity,
            messages,
            rounds,
        })
    }

    /// Whether the shape can be had at this capacity; `None` where there is no such shape.
    fn can_be_timed(&self) -> Option<bool> {
        match self.shape.as_str() {
            "seq" | "plain" => Some(!matches!(self.capacity, Capacity::Of(_))),
            "try_full" => Some(matches!(self.capacity, Capacity::Of(_))),
            "poll_send_park" | "crowd_futures" => {
                Some(matches!(self.capacity, Capacity::Of(1..)))
            }
            "oneshot" | "inout" | "try_pair" | "poll_pair" | "async_pair" | "select_seq" => {
                Some(self.capacity != Capacity::Of(0))
            }
            "spsc" | "mpsc" | "mpmc" | "try_empty" | "poll_recv_park" | "async_join"
            | "async_ping" | "pending" | "pending_drop" | "select_rx" => Some(true),
            _ => None,
        }
    }

    fn open(&self) -> Ends {
        match self.capacity {
            Capacity::Unbounded => flume::unbounded(),
            Capacity::Big => flume::bounded(self.messages),
            Capacity::Of(capacity) => flume::bounded(capacity),
        }
    }

    /// The time of one run. It panics if what was received isn't what was sent.
    fn run(&self) -> Duration {
        let (time, sum, senders) = self.in_threads().unwrap_or_else(|| self.in_one_thread());
        check_sum(sum, self.messages, senders);
        time
    }

    /// Making the channels and the threads is in the time.
    fn in_threads(&self) -> Option<Timed> {
        let messages = self.messages;
        Some(match self.shape.as_str() {
            "seq" => timed(1, || seq(&self.open(), messages)),
            "plain" => timed(2, || plain(&self.open(), messages)),
            "spsc" => timed(1, || to_one(self.open(), 1, messages)),
            "mpsc" => timed(SEVERAL, || to_one(self.open(), SEVERAL, messages)),
            "mpmc" => timed(SEVERAL, || to_several(self.open(), messages)),
            "oneshot" => timed(1, || oneshot(|| self.open(), messages)),
            "async_ping" => timed(2, || self.async_ping()),
            "select_rx" => timed(SEVERAL, || self.select_rx()),
            _ => return None,
        })
    }

    fn in_one_thread(&self) -> Timed {
        let (ends, messages) = (self.open(), self.messages);
        match self.shape.as_str() {
            "inout" => timed(1, || inout(&ends, messages)),
            "try_pair" => timed(1, || try_pair(&ends, messages)),
            "try_empty" => counted(messages, |_| ends.1.try_recv().is_err()),
            "try_full" => self.try_full(&ends),
            "poll_pair" => self.poll_pair(&ends),
            "poll_recv_park" => self.poll_recv_park(&ends),
            "poll_send_park" => self.poll_send_park(&ends),
            "async_pair" => timed(1, || block_on(to_and_fro(&ends.0, &ends.1, messages))),
            "async_join" => timed(1, || self.async_join(&ends)),
            "pending" => self.pending(&ends),
            "pending_drop" => self.pending_drop(&ends),
            "crowd_futures" => self.crowd_futures(&ends),
            _ => self.select_seq(),
        }
    }

    fn try_full(&self, (sender, _): &Ends) -> Timed {
        send_each(sender, sender.capacity().unwrap_or(0));
        counted(self.messages, |message| sender.try_send(message).is_err())
    }
}

impl Asked {
    /// Each message sent, and received before the next, by polls that are ready at once. Here and
    /// in the next two no executor is in the time, and the waker does nothing.
    fn poll_pair(&self, (sender, receiver): &Ends) -> Timed {
        let mut context = Context::from_waker(Waker::noop());
        let start = Instant::now();
        let mut sum = 0usize;
        for message in 0..self.messages {
            let mut send = sender.send_async(message);
            if Pin::new(&mut send).poll(&mut context).is_pending() {
                break;
            }
            drop(send);
            let mut receive = receiver.recv_async();
            if let Poll::Ready(Ok(message)) = Pin::new(&mut receive).poll(&mut context) {
                sum = sum.wrapping_add(message);
            }
        }
        (start.elapsed(), sum, 1)
    }

    /// For each message a receive that waits, the message sent, and the receive polled again.
    fn poll_recv_park(&self, (sender, receiver): &Ends) -> Timed {
        let mut context = Context::from_waker(Waker::noop());
        let start = Instant::now();
        let mut sum = 0usize;
        for message in 0..self.messages {
            let mut receive = receiver.recv_async();
            let first = Pin::new(&mut receive).poll(&mut context);
            if first.is_ready() || sender.try_send(message).is_err() {
                break;
            }
            if let Poll::Ready(Ok(message)) = Pin::new(&mut receive).poll(&mut context) {
                sum = sum.wrapping_add(message);
            }
        }
        (start.elapsed(), sum, 1)
    }

    /// For each message a send that waits, a message received, and the send polled again.
    fn poll_send_park(&self, (sender, receiver): &Ends) -> Timed {
        send_each(sender, sender.capacity().unwrap_or(0));
        let mut context = Context::from_waker(Waker::noop());
        let start = Instant::now();
        let mut sum = 0usize;
        for message in 0..self.messages {
            let mut send = sender.send_async(message);
            let first = Pin::new(&mut send).poll(&mut context);
            if first.is_ready() || receiver.try_recv().is_err() {
                break;
            }
            if let Poll::Ready(Ok(())) = Pin::new(&mut send).poll(&mut context) {
                sum = sum.wrapping_add(message);
            }
        }
        (start.elapsed(), sum, 1)
    }

    fn async_join(&self, (sender, receiver): &Ends) -> usize {
        let sends = async {
            for message in 0..self.messages {
                if sender.send_async(message).await.is_err() {
                    return;
                }
            }
        };
        let receives = async {
            let mut sum = 0usize;
            for _ in 0..self.messages {
                sum = sum.wrapping_add(receiver.recv_async().await.unwrap_or(0));
            }
            sum
        };
        block_on(join(sends, receives)).1
    }

    /// Half of the messages sent to a second thread, which sends each back over a second channel.
    /// Each thread runs a task of its own.
    fn async_ping(&self) -> usize {
        let each = self.messages / 2;
        let ((to, there), (back, here)) = (self.open(), self.open());
        let sum = thread::scope(|scope| {
            scope.spawn(move || block_on(echo(&back, &there, each)));
            block_on(to_and_fro(&to, &here, each))
        });
        sum.wrapping_mul(2)
    }

    /// For each receive that waits a message sent, which it takes as it is polled again.
    fn pending(&self, (sender, receiver): &Ends) -> Timed {
        let mut context = Context::from_waker(Waker::noop());
        let mut receives = self.wait_each(self.messages, receiver, &mut context);
        let start = Instant::now();
        let mut sum = 0usize;
        for (message, receive) in receives.iter_mut().enumerate() {
            if sender.try_send(message).is_err() {
                break;
            }
            if let Poll::Ready(Ok(message)) = Pin::new(receive).poll(&mut context) {
                sum = sum.wrapping_add(message);
            }
        }
        (start.elapsed(), sum, 1)
    }

    /// Each receive that waits dropped, the newest first.
    fn pending_drop(&self, (_, receiver): &Ends) -> Timed {
        let mut context = Context::from_waker(Waker::noop());
        let mut receives = self.wait_each(self.messages, receiver, &mut context);
        counted(self.messages, |_| receives.pop().is_some())
    }

    /// The receive that waits longest takes each message, and another begins to wait.
    fn crowd_futures(&self, (sender, receiver): &Ends) -> Timed {
        let mut context = Context::from_waker(Waker::noop());
        let standing = sender.capacity().unwrap_or(0);
        let mut receives = self.wait_each(standing, receiver, &mut context);
        let start = Instant::now();
        let mut sum = 0usize;
        for message in 0..self.messages {
            let receive = &mut receives[message % standing];
            if sender.try_send(message).is_err() {
                break;
            }
            let Poll::Ready(Ok(message)) = Pin::new(&mut *receive).poll(&mut context) else {
                break;
            };
            *receive = receiver.recv_async();
            if Pin::new(receive).poll(&mut context).is_ready() {
                break;
            }
            sum = sum.wrapping_add(message);
        }
        let time = start.elapsed();
        // To drop them takes flume as long as to pass each by for each: a minute for 100,000.
        mem::forget(receives);
        (time, sum, 1)
    }

    fn wait_each<'a>(
        &self,
        standing: usize,
        receiver: &'a Receiver<usize>,
        context: &mut Context<'_>,
    ) -> Vec<RecvFut<'a, usize>> {
        let mut receives = Vec::new();
        for _ in 0..standing {
            let mut receive = receiver.recv_async();
            if Pin::new(&mut receive).poll(context).is_pending() {
                receives.push(receive);
            }
        }
        receives
    }
}

impl Asked {
    fn open_four(&self) -> ([Sender<usize>; SEVERAL], [Receiver<usize>; SEVERAL]) {
        let (one, two, three, four) = (self.open(), self.open(), self.open(), self.open());
        ([one.0, two.0, three.0, four.0], [one.1, two.1, three.1, four.1])
    }

    /// Each message sent into one of the channels in turn, and received by a selection over all.
    fn select_seq(&self) -> Timed {
        let (senders, receivers) = self.open_four();
        timed(1, || {
            let mut sum = 0usize;
            for message in 0..self.messages {
                if senders[message % SEVERAL].send(message).is_err() {
                    break;
                }
                sum = sum.wrapping_add(select(&receivers));
            }
            sum
        })
    }

    /// Four threads send, each into a channel of its own, and this one receives all by selections.
    fn select_rx(&self) -> usize {
        let each = self.messages / SEVERAL;
        let (senders, receivers) = self.open_four();
        thread::scope(|scope| {
            for sender in &senders {
                scope.spawn(move || send_each(sender, each));
            }
            (0..each * SEVERAL).fold(0usize, |sum, _| sum.wrapping_add(select(&receivers)))
        })
    }
}

fn select(receivers: &[Receiver<usize>; SEVERAL]) -> usize {
    Selector::new()
        .recv(&receivers[0], |answer| answer.unwrap_or(0))
        .recv(&receivers[1], |answer| answer.unwrap_or(0))
        .recv(&receivers[2], |answer| answer.unwrap_or(0))
        .recv(&receivers[3], |answer| answer.unwrap_or(0))
        .wait()
}

async fn to_and_fro(sender: &Sender<usize>, receiver: &Receiver<usize>, messages: usize) -> usize {
    let mut sum = 0usize;
    for message in 0..messages {
        if sender.send_async(message).await.is_err() {
            break;
        }
        sum = sum.wrapping_add(receiver.recv_async().await.unwrap_or(0));
    }
    sum
}

async fn echo(sender: &Sender<usize>, receiver: &Receiver<usize>, messages: usize) {
    for _ in 0..messages {
        let Ok(message) = receiver.recv_async().await else {
            break;
        };
        if sender.send_async(message).await.is_err() {
            break;
        }
    }
}

fn main() -> ExitCode {
    answer(USAGE, |words| {
        let asked = Asked::read(words)?;
        let least = || (0..asked.rounds.max(1)).map(|_| asked.run()).min();
        Some(asked.can_be_timed()?.then(|| (least().unwrap_or_default(), asked.messages)))
    })
}
