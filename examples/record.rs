// Records what threads do on a channel of std: `rustc -O record.rs && ./record >FILE`. Copy `Recorder`
// and `recording`, and record every call. Every clone and every drop of an end is a call, also the drop
// at the end of a block. Each `next` of an iterator is a `recv`. Each arm of a selection is a future,
// `send_async` or `recv_async`, of a recorder of its own; those that lost return `dropped`.
use std::sync::Mutex;
use std::sync::atomic::{AtomicUsize, Ordering::SeqCst};
use std::sync::mpsc::sync_channel;
use std::thread;

static NEXT: AtomicUsize = AtomicUsize::new(0);
static RECORDED: Mutex<Vec<(usize, String)>> = Mutex::new(Vec::new());

/// One for each thread. When it is dropped, its events join those of the others.
struct Recorder {
    name: String,
    events: Vec<(usize, String)>,
}

impl Recorder {
    fn new(name: &str) -> Self {
        Recorder { name: name.into(), events: Vec::new() }
    }

    /// Makes a call, and records it with what `answer` says of its result.
    fn call<T>(&mut self, text: &str, make: impl FnOnce() -> T, answer: impl FnOnce(&T) -> String) -> T {
        let begins = format!("{}: {text}", self.name);
        self.events.push((NEXT.fetch_add(1, SeqCst), begins));
        let result = make();
        let place = NEXT.fetch_add(1, SeqCst);
        self.events.push((place, format!("{} -> {}", self.name, answer(&result))));
        result
    }
}

impl Drop for Recorder {
    fn drop(&mut self) {
        RECORDED.lock().unwrap().append(&mut self.events);
    }
}

/// The recording, once all recorders are dropped.
fn recording(opening: &str) -> String {
    let mut events = RECORDED.lock().unwrap();
    events.sort();
    events.iter().fold(opening.into(), |text, (_, line)| text + "\n" + line)
}

fn main() {
    let (tx, rx) = sync_channel(2);
    let mut here = Recorder::new("r");
    let other = here.call("clone_sender", || tx.clone(), |_| "done".into());
    let senders = [("p", tx, 10), ("q", other, 20)].map(|(name, tx, first)| {
        thread::spawn(move || {
            let mut here = Recorder::new(name);
            for message in first..first + 5 {
                let answer = |sent: &Result<_, _>| if sent.is_ok() { "sent" } else { "disconnected" }.into();
                here.call(&format!("send {message}"), || tx.send(message), answer).unwrap();
            }
            here.call("drop_sender", || drop(tx), |_| "done".into());
        })
    });
    let answer = |got: &Result<_, _>| got.as_ref().map_or("disconnected".into(), |it| format!("got {it}"));
    while here.call("recv", || rx.recv(), answer).is_ok() {}
    for it in senders {
        it.join().unwrap();
    }
    drop(here);
    println!("{}", recording("bounded 2"));
}
