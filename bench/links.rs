//! Sends words from one thread to another, as `test_threads links` does, by the standard library's `sync_channel` with 64
//! places, into a `Vec`: links WORDS
//!
//! Prints for each way of waiting how long a word takes: the fastest of 25 runs.

use std::sync::mpsc::{Receiver, SyncSender, TryRecvError, TrySendError, sync_channel};
use std::thread;
use std::time::{Duration, Instant};

const PLACES: usize = 64;
const RUNS: u32 = 25;

/// A remote player's word of a frame.
#[derive(Clone, Copy)]
struct Remote {
    player: u8,
    frame: u32,
    word: u32,
}

/// How an end waits for the other.
#[derive(Clone, Copy)]
enum Wait {
    /// In the channel, until it is woken.
    Sleeping,
    /// It lets other threads run, and tries again.
    Polling,
}

fn remote(number: u32) -> Remote {
    Remote {
        player: 2,
        frame: number,
        word: number,
    }
}

fn send_all(sender: SyncSender<Remote>, count: u32, wait: Wait) {
    for number in 0..count {
        let item = remote(number);
        match wait {
            Wait::Sleeping => sender.send(item).unwrap(),
            Wait::Polling => {
                while let Err(TrySendError::Full(_)) = sender.try_send(item) {
                    thread::yield_now();
                }
            }
        }
    }
}

fn take_all(receiver: &Receiver<Remote>, list: &mut Vec<Remote>, wait: Wait) {
    loop {
        match wait {
            Wait::Sleeping => match receiver.recv() {
                Ok(item) => list.push(item),
                Err(_) => return,
            },
            Wait::Polling => match receiver.try_recv() {
                Ok(item) => list.push(item),
                Err(TryRecvError::Empty) => thread::yield_now(),
                Err(TryRecvError::Disconnected) => return,
            },
        }
    }
}

/// The time in which so many words come into a list.
fn timed(count: u32, sending: Wait, taking: Wait) -> Duration {
    let (sender, receiver) = sync_channel(PLACES);
    let mut list = Vec::with_capacity(count as usize);
    let start = Instant::now();
    let handle = thread::spawn(move || send_all(sender, count, sending));
    take_all(&receiver, &mut list, taking);
    let spent = start.elapsed();
    handle.join().unwrap();
    let right = |(item, number): (&Remote, u32)| (item.player, item.frame, item.word) == (2, number, number);
    assert!(list.len() == count as usize && list.iter().zip(0..).all(right));
    spent
}

fn main() {
    let count: u32 = std::env::args().nth(1).map_or(1_000_000, |count| count.parse().unwrap());
    let ways = [
        ("`sync_channel`, both ends poll", Wait::Polling, Wait::Polling),
        ("`sync_channel`, the sender sleeps", Wait::Sleeping, Wait::Polling),
        ("`sync_channel`, both ends sleep", Wait::Sleeping, Wait::Sleeping),
    ];
    for (name, sending, taking) in ways {
        let spent = (0..RUNS).map(|_| timed(count, sending, taking)).min().unwrap();
        let each = spent.as_secs_f64() / f64::from(count);
        println!("| {name} | {:.1} ns | {:.1} million |", each * 1e9, 1e-6 / each);
    }
}
