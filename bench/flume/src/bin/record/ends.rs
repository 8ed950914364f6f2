//! The ends of both libraries, and what their calls answer, as words of a recording.

use std::fmt::{self, Display};
use std::future::Future;
use std::pin::Pin;
use std::time::Duration;

/// How long a call with a deadline waits.
const SHORT: Duration = Duration::from_micros(100);

/// A future of a call, which comes to the call's answer.
pub type Pending<'e> = Pin<Box<dyn Future<Output = String> + 'e>>;

#[derive(Clone, Copy)]
pub enum SenderCall {
    Send(u64),
    SendTimeout(u64),
    TrySend(u64),
    Len,
}

#[derive(Clone, Copy)]
pub enum ReceiverCall {
    Recv,
    RecvTimeout,
    TryRecv,
    Drain,
    Len,
}

/// A sender: what its call answers, and its future of a send, if the library has futures.
pub trait SendingEnd: Clone + Send {
    fn answer(&self, call: SenderCall) -> String;

    fn future(&self, message: u64) -> Option<Pending<'_>>;
}

/// A receiver: what its call answers, if the library has the call, and its future of a receive.
pub trait ReceivingEnd: Clone + Send {
    fn has(call: ReceiverCall) -> bool;

    fn answer(&self, call: ReceiverCall) -> String;

    fn future(&self) -> Option<Pending<'_>>;
}

impl Display for SenderCall {
    fn fmt(&self, to: &mut fmt::Formatter<'_>) -> fmt::Result {
        match self {
            SenderCall::Send(message) => write!(to, "send {message}"),
            SenderCall::SendTimeout(message) => write!(to, "send_timeout {message}"),
            SenderCall::TrySend(message) => write!(to, "try_send {message}"),
            SenderCall::Len => to.write_str("len"),
        }
    }
}

impl Display for ReceiverCall {
    fn fmt(&self, to: &mut fmt::Formatter<'_>) -> fmt::Result {
        to.write_str(match self {
            ReceiverCall::Recv => "recv",
            ReceiverCall::RecvTimeout => "recv_timeout",
            ReceiverCall::TryRecv => "try_recv",
            ReceiverCall::Drain => "drain",
            ReceiverCall::Len => "len",
        })
    }
}

fn sent<E>(result: Result<(), E>, refused: impl FnOnce(E) -> &'static str) -> String {
    match result {
        Ok(()) => "sent".into(),
        Err(error) => refused(error).into(),
    }
}

fn got<E>(result: Result<u64, E>, refused: impl FnOnce(E) -> &'static str) -> String {
    match result {
        Ok(message) => format!("got {message}"),
        Err(error) => refused(error).into(),
    }
}

/// The answers of the calls that both libraries have under the same names.
macro_rules! alike {
    ($library:ident) => {
        fn sender_answer(sender: &$library::Sender<u64>, call: SenderCall) -> String {
            match call {
                SenderCall::Send(message) => sent(sender.send(message), |_| "disconnected"),
                SenderCall::SendTimeout(message) => {
                    sent(sender.send_timeout(message, SHORT), |error| match error {
                        $library::SendTimeoutError::Timeout(_) => "timeout",
                        $library::SendTimeoutError::Disconnected(_) => "disconnected",
                    })
                }
                SenderCall::TrySend(message) => {
                    sent(sender.try_send(message), |error| match error {
                        $library::TrySendError::Full(_) => "full",
                        $library::TrySendError::Disconnected(_) => "disconnected",
                    })
                }
                SenderCall::Len => sender.len().to_string(),
            }
        }

        fn receiver_answer(receiver: &$library::Receiver<u64>, call: ReceiverCall) -> String {
            match call {
                ReceiverCall::Recv => got(receiver.recv(), |_| "disconnected"),
                ReceiverCall::RecvTimeout => {
                    got(receiver.recv_timeout(SHORT), |error| match error {
                        $library::RecvTimeoutError::Timeout => "timeout",
                        $library::RecvTimeoutError::Disconnected => "disconnected",
                    })
                }
                ReceiverCall::TryRecv => got(receiver.try_recv(), |error| match error {
                    $library::TryRecvError::Empty => "empty",
                    $library::TryRecvError::Disconnected => "disconnected",
                }),
                ReceiverCall::Drain => drained(receiver),
                ReceiverCall::Len => receiver.len().to_string(),
            }
        }
    };
}

mod flume_ends {
    use super::*;

    alike!(flume);

    fn drained(receiver: &flume::Receiver<u64>) -> String {
        let messages = receiver.drain().map(|message| format!(" {message}"));
        format!("drained{}", messages.collect::<String>())
    }

    impl SendingEnd for flume::Sender<u64> {
        fn answer(&self, call: SenderCall) -> String {
            sender_answer(self, call)
        }

        fn future(&self, message: u64) -> Option<Pending<'_>> {
            let future = self.send_async(message);
            Some(Box::pin(async { sent(future.await, |_| "disconnected") }))
        }
    }

    impl ReceivingEnd for flume::Receiver<u64> {
        fn has(_: ReceiverCall) -> bool {
            true
        }

        fn answer(&self, call: ReceiverCall) -> String {
            receiver_answer(self, call)
        }

        fn future(&self) -> Option<Pending<'_>> {
            let future = self.recv_async();
            Some(Box::pin(async { got(future.await, |_| "disconnected") }))
        }
    }
}

mod crossbeam_ends {
    use super::*;

    alike!(crossbeam_channel);

    fn drained(_: &crossbeam_channel::Receiver<u64>) -> String {
        unreachable!("crossbeam-channel has no drain")
    }

    impl SendingEnd for crossbeam_channel::Sender<u64> {
        fn answer(&self, call: SenderCall) -> String {
            sender_answer(self, call)
        }

        fn future(&self, _: u64) -> Option<Pending<'_>> {
            None
        }
    }

    impl ReceivingEnd for crossbeam_channel::Receiver<u64> {
        fn has(call: ReceiverCall) -> bool {
            !matches!(call, ReceiverCall::Drain)
        }

        fn answer(&self, call: ReceiverCall) -> String {
            receiver_answer(self, call)
        }

        fn future(&self) -> Option<Pending<'_>> {
            None
        }
    }
}
