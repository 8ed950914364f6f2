//! Four workers share the jobs of one channel, and send their answers into another: the program
//! crates/example_worker_pool as one writes it over flume itself. It prints the same lines.
use flume::{Receiver, Sender};
use std::thread;

const WORKERS: usize = 4;

const JOBS: u64 = 12;

// No job of this program takes so many.
const MOST_STEPS: u64 = 1000;

// A job and its answer.
type Answer = (u64, u64);

fn main() {
    let (jobs, to_do) = flume::bounded(4);
    let (done, answers) = flume::bounded(4);
    let workers: Vec<_> = (0..WORKERS)
        .map(|_| {
            let (to_do, done) = (to_do.clone(), done.clone());
            thread::spawn(move || work(&to_do, &done))
        })
        .collect();
    drop(to_do);
    drop(done);
    let feeder = thread::spawn(move || feed(&jobs));
    let mut answers: Vec<Answer> = answers.iter().collect();
    answers.sort();
    for worker in workers {
        worker.join().unwrap();
    }
    feeder.join().unwrap();
    for (job, steps) in answers {
        println!("{job}: {steps}");
    }
}

fn feed(jobs: &Sender<u64>) {
    for job in 1..=JOBS {
        jobs.send(job).unwrap();
    }
}

fn work(to_do: &Receiver<u64>, done: &Sender<Answer>) {
    for job in to_do.iter() {
        done.send((job, steps_to_one(job))).unwrap();
    }
}

fn steps_to_one(start: u64) -> u64 {
    let mut number = start;
    for steps in 0..MOST_STEPS {
        if number == 1 {
            return steps;
        }
        number = if number % 2 == 0 {
            number / 2
        } else {
            3 * number + 1
        };
    }
    MOST_STEPS
}
