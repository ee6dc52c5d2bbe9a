//! What a frame costs through Rust: cargo run --release --example frames, after `make libraries`
//!
//! The first five lines of `make bench` (bench/c_frames.c), by the types: a frame is all calls and requests of a turn, each
//! line the least of nine runs. `make c_frames && out/bench/c_frames 0` measures the same in C.
use fazgrond::{Datagram, Error, Game, Match, Peer, Row, Session, Settings};
use std::time::{Duration, Instant};

const FRAMES: u32 = 20000;
const RUNS: usize = 9;

#[derive(Default)]
struct Sum {
    state: u64,
    steps: u32,
}

impl Game for Sum {
    type State = u64;

    fn save(&self) -> u64 {
        self.state
    }

    fn load(&mut self, state: &u64) {
        self.state = *state;
    }

    fn advance(&mut self, row: &Row) {
        let told: u64 = (1..).zip(row.cells()).map(|(player, word)| player * u64::from(word.unwrap_or(0))).sum();
        self.state = (10 * self.state + told) % 1_000_000;
        self.steps += 1;
    }
}

/// Player 2's words come so many frames late: another one in each frame, or always 0.
fn play(session: &mut Session<Sum>, late: u32, changes: bool) -> Result<(), Error> {
    for frame in 0..FRAMES {
        if let Some(heard) = frame.checked_sub(late) {
            session.remote_input(2, heard, if changes { heard } else { 0 })?;
            if late > 0 {
                session.synchronize_input()?;
            }
        }
        session.add_local_input(1, frame)?;
        session.advance_frame()?;
    }
    Ok(())
}

fn measure(what: &str, late: u32, changes: bool) -> Result<(), Error> {
    let (mut least, mut steps) = (Duration::MAX, 0);
    for _ in 0..RUNS {
        let mut session = Session::open(&Settings::new(2, &[1]), Sum::default())?;
        let start = Instant::now();
        play(&mut session, late, changes)?;
        least = least.min(start.elapsed());
        steps = session.game().steps;
    }
    println!("{what:38} {:7.0} ns a frame, {:4.2} steps", nanoseconds(least), of_frames(steps));
    Ok(())
}

/// A machine of a match: its session, the peer beside it, and what is on the way to it.
struct Machine {
    session: Session<Sum>,
    peer: Peer,
    came: Option<Datagram>,
}

impl Machine {
    fn open(me: u8) -> Result<Machine, Error> {
        let mut session = Session::open(&Settings::new(2, &[me + 1]), Sum::default())?;
        let terms = Match::new(2, me, &[0, 1], u64::from(me) + 1).number(7).silent_after(5000);
        let peer = Peer::open(&mut session, &terms)?;
        Ok(Machine { session, peer, came: None })
    }

    fn turn(&mut self, me: u8, turn: u32) -> Result<Option<Datagram>, Error> {
        let now = turn * 16;
        if let Some(bytes) = &self.came {
            let _ = self.peer.receive(&mut self.session, bytes, now); // a first play can't be opened yet
        }
        if self.peer.is_running() {
            let _ = self.session.add_local_input(me + 1, turn);
        }
        self.peer.turn(&mut self.session, now)?;
        self.peer.send(&self.session, 1 - me, now)
    }
}

fn measure_peers() -> Result<(), Error> {
    let (mut least, mut steps, mut frames) = (Duration::MAX, 0, 0);
    for _ in 0..RUNS {
        let (mut one, mut two) = (Machine::open(0)?, Machine::open(1)?);
        let start = Instant::now();
        for turn in 0..FRAMES {
            two.came = one.turn(0, turn)?;
            one.came = two.turn(1, turn)?;
        }
        least = least.min(start.elapsed() / 2);
        (steps, frames) = (one.session.game().steps, one.session.frame());
    }
    let (took, steps, frames) = (nanoseconds(least), of_frames(steps), of_frames(frames));
    println!("{:38} {took:7.0} ns a turn, {steps:4.2} steps, {frames:.2} frames", "two peers, a turn of one");
    Ok(())
}

fn nanoseconds(took: Duration) -> f64 {
    took.as_secs_f64() * 1e9 / f64::from(FRAMES)
}

fn of_frames(count: u32) -> f64 {
    f64::from(count) / f64::from(FRAMES)
}

fn main() -> Result<(), Error> {
    measure("each word in time, no rollback", 0, true)?;
    measure("each word 6 frames late, as predicted", 6, false)?;
    measure("each word 6 frames late, another one", 6, true)?;
    measure("each word 2 frames late, another one", 2, true)?;
    measure_peers()
}
