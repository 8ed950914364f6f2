//! A thread of a run: the ends that it has, and the calls that it draws.

use crate::draw::Draw;
use crate::ends::{Pending, ReceiverCall, ReceivingEnd, SenderCall, SendingEnd};
use crate::log::Log;
use std::fmt::Display;
use std::hint;
use std::task::{Context, Poll, Waker};
use std::thread;

const FUTURES: usize = 2;

pub struct Seat {
    pub name: String,
    pub log: Log,
    pub draw: Draw,
    pub calls: usize,
    /// The number before its first message.
    pub message: u64,
}

impl Seat {
    fn begin(&self, call: impl Display) {
        self.log.begin(&self.name, call);
    }

    fn end(&self, answer: impl Display) {
        self.log.end(&self.name, answer);
    }

    /// A future counts as a thread of its own.
    fn begin_future(&self, place: usize, call: impl Display) {
        self.log.begin(&format!("{}f{place}", self.name), call);
    }

    fn end_future(&self, place: usize, answer: impl Display) {
        self.log.end(&format!("{}f{place}", self.name), answer);
    }
}

/// A thread: its first ends, which its futures borrow, its other ends, and its futures.
///
/// It blocks in a send only if it has no receiver, and in a receive only if it has no sender. So a
/// correct channel frees it once the other threads have dropped their ends.
pub struct Party<'e, S, R> {
    seat: Seat,
    sender: Option<&'e S>,
    receiver: Option<&'e R>,
    senders: Vec<S>,
    receivers: Vec<R>,
    futures: [Option<Pending<'e>>; FUTURES],
}

impl<'e, S: SendingEnd, R: ReceivingEnd> Party<'e, S, R> {
    pub fn new(seat: Seat, sender: Option<&'e S>, receiver: Option<&'e R>) -> Self {
        Party {
            seat,
            sender,
            receiver,
            senders: Vec::new(),
            receivers: Vec::new(),
            futures: [None, None],
        }
    }

    /// Makes the thread's calls, the last of which drop all ends but the first ones.
    pub fn run(mut self) {
        let first = usize::from(self.sender.is_some()) + usize::from(self.receiver.is_some());
        let mut left = self.seat.calls.saturating_sub(first);
        while left > self.others() {
            self.pause();
            let may_clone = left > self.others() + 1;
            left -= self.draw_call(may_clone);
        }
        for place in 0..FUTURES {
            self.drop_future(place);
        }
        while self.drop_sender() + self.drop_receiver() > 0 {}
    }

    fn others(&self) -> usize {
        self.senders.len() + self.receivers.len()
    }

    /// Waits a little or not at all, so that the threads meet each time at other places.
    fn pause(&mut self) {
        match self.seat.draw.below(8) {
            0 => thread::yield_now(),
            1 | 2 => (0..self.seat.draw.below(500)).for_each(|_| hint::spin_loop()),
            _ => (),
        }
    }

    /// Makes a call, or goes on with one of a future; how many calls began.
    fn draw_call(&mut self, may_clone: bool) -> usize {
        let has_both = self.sender.is_some() && self.receiver.is_some();
        let sends = match has_both {
            true => self.seat.draw.below(2) == 0,
            false => self.sender.is_some(),
        };
        match self.seat.draw.below(16) {
            0 | 1 => self.go_on_with_a_future(),
            2 | 3 => self.begin_future(sends),
            4 if may_clone && sends => self.clone_sender(),
            4 if may_clone => self.clone_receiver(),
            5 if sends => self.drop_sender(),
            5 => self.drop_receiver(),
            _ if sends => self.call_sender(has_both),
            _ => self.call_receiver(has_both),
        }
    }

    fn message(&mut self) -> u64 {
        self.seat.message += 1;
        self.seat.message
    }

    fn call_sender(&mut self, has_both: bool) -> usize {
        let call = match self.seat.draw.below(10) {
            0 => SenderCall::Len,
            1..=3 => SenderCall::TrySend(self.message()),
            4..=6 => SenderCall::SendTimeout(self.message()),
            _ if has_both => SenderCall::TrySend(self.message()),
            _ => SenderCall::Send(self.message()),
        };
        let place = self.seat.draw.below(self.senders.len() as u64 + 1) as usize;
        let Some(sender) = self.senders.get(place).or(self.sender) else {
            return 0;
        };
        self.seat.begin(call);
        let answer = sender.answer(call);
        self.seat.end(answer);
        1
    }

    fn call_receiver(&mut self, has_both: bool) -> usize {
        let call = match self.seat.draw.below(20) {
            0 | 1 => ReceiverCall::Len,
            2 if R::has(ReceiverCall::Drain) => ReceiverCall::Drain,
            2..=7 => ReceiverCall::TryRecv,
            8..=13 => ReceiverCall::RecvTimeout,
            _ if has_both => ReceiverCall::TryRecv,
            _ => ReceiverCall::Recv,
        };
        let place = self.seat.draw.below(self.receivers.len() as u64 + 1) as usize;
        let Some(receiver) = self.receivers.get(place).or(self.receiver) else {
            return 0;
        };
        self.seat.begin(call);
        let answer = receiver.answer(call);
        self.seat.end(answer);
        1
    }

    fn clone_sender(&mut self) -> usize {
        let Some(first) = self.sender else { return 0 };
        self.seat.begin("clone_sender");
        let other = first.clone();
        self.seat.end("done");
        self.senders.push(other);
        1
    }

    fn clone_receiver(&mut self) -> usize {
        let Some(first) = self.receiver else { return 0 };
        self.seat.begin("clone_receiver");
        let other = first.clone();
        self.seat.end("done");
        self.receivers.push(other);
        1
    }

    fn drop_sender(&mut self) -> usize {
        let Some(other) = self.senders.pop() else {
            return 0;
        };
        self.seat.begin("drop_sender");
        drop(other);
        self.seat.end("done");
        1
    }

    fn drop_receiver(&mut self) -> usize {
        let Some(other) = self.receivers.pop() else {
            return 0;
        };
        self.seat.begin("drop_receiver");
        drop(other);
        self.seat.end("done");
        1
    }

    fn begin_future(&mut self, sends: bool) -> usize {
        let Some(place) = self.futures.iter().position(Option::is_none) else {
            return 0;
        };
        let (call, future) = match (sends, self.sender, self.receiver) {
            (true, Some(sender), _) => {
                let message = self.message();
                (format!("send_async {message}"), sender.future(message))
            }
            (_, _, Some(receiver)) => ("recv_async".into(), receiver.future()),
            _ => return 0,
        };
        if future.is_none() {
            return 0;
        }
        self.seat.begin_future(place, call);
        self.futures[place] = future;
        self.poll_future(place);
        1
    }

    fn poll_future(&mut self, place: usize) {
        let Some(future) = &mut self.futures[place] else {
            return;
        };
        let polled = future
            .as_mut()
            .poll(&mut Context::from_waker(Waker::noop()));
        if let Poll::Ready(answer) = polled {
            self.seat.end_future(place, answer);
            self.futures[place] = None;
        }
    }

    fn drop_future(&mut self, place: usize) {
        let Some(future) = self.futures[place].take() else {
            return;
        };
        drop(future);
        self.seat.end_future(place, "dropped");
    }

    /// Polls a future again, and then drops it in three of four cases if it isn't done.
    fn go_on_with_a_future(&mut self) -> usize {
        let place = self.seat.draw.below(FUTURES as u64) as usize;
        self.poll_future(place);
        if self.seat.draw.below(4) > 0 {
            self.drop_future(place);
        }
        0
    }
}
