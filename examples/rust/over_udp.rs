//! One machine of the match of examples/c/two_peers.c, over UDP: over_udp ME PORT ADDRESS PORT. Run one with 0 and one with 1.
use fazgrond::{Event, Game, Match, Peer, Row, Session, Settings};
use std::collections::hash_map::RandomState;
use std::error::Error;
use std::hash::{BuildHasher, Hasher};
use std::net::UdpSocket;
use std::time::{Duration, Instant};
use std::{env, thread};

const FRAMES: u32 = 600;
const NUMBER: u64 = 0x5eed_5eed_5eed_5eed;
const SPEED: u32 = 10; // how many times as fast it goes
const PAST_LAST: u32 = 32; // turns past the end, so that the other machine has all of it too

/// 31 times the number, and of each player the number times the word.
struct Digest(u64);

impl Game for Digest {
    type State = u64;

    fn save(&self) -> u64 {
        self.0
    }

    fn load(&mut self, state: &u64) {
        self.0 = *state;
    }

    fn advance(&mut self, row: &Row) {
        let told = (1..).zip(row.cells()).map(|(player, word)| word.map_or(5, |word| player * u64::from(word)));
        self.0 = (31 * self.0 + told.sum::<u64>()) % 1_000_003;
    }
}

/// What a player holds in a frame.
fn word_of(me: u8, frame: u32) -> u32 {
    (frame / (5 + 2 * u32::from(me))).wrapping_mul(2_654_435_761) >> 28
}

/// Bits for this opening of the match: the standard library's hashes have keys of the system's source of random bits.
fn draw() -> u64 {
    RandomState::new().build_hasher().finish().max(1)
}

/// A turn: plays a frame if it may. Answers for how many turns this machine should now give no word.
fn play(session: &mut Session<Digest>, peer: &mut Peer, me: u8, wait: u32, now: u32) -> Result<u32, Box<dyn Error>> {
    if peer.is_running() && wait == 0 {
        let word = word_of(me, session.frame());
        let _ = session.add_local_input(me + 1, word); // refused if it is too far ahead, or at the last frame
    }
    let mut wait = wait.saturating_sub(1);
    peer.turn(session, now)?;
    peer.note_settled(session, session.settled_state().map_or(0, |(_, state)| *state))?; // the state is a digest of itself
    while let Some(event) = peer.event() {
        match event {
            Event::TimeSync { frames_ahead } => wait = frames_ahead,
            Event::Desync { frame, .. } => return Err(format!("the states differ at frame {frame}").into()),
            // So it is to a program that was begun again, and that its match doesn't take back.
            Event::Missing { .. } => return Err("the other machine isn't in this match".into()),
            Event::Mismatch { .. } => return Err("the other machine means another match".into()),
            Event::Dropped => return Err("the other machine regards this one as gone".into()),
            _ => {}
        }
    }
    Ok(wait)
}

fn main() -> Result<(), Box<dyn Error>> {
    let words: Vec<String> = env::args().skip(1).collect();
    let (me, port, address, other_port) = match &words[..] {
        [me, port, address, other_port] => (me, port, address, other_port),
        _ => return Err("usage: over_udp ME PORT ADDRESS PORT".into()),
    };
    let me = me.parse().ok().filter(|me| *me < 2).ok_or("ME is 0 or 1")?;
    let line = UdpSocket::bind(("0.0.0.0", port.parse()?))?;
    line.connect((address.as_str(), other_port.parse()?))?;
    line.set_nonblocking(true)?;
    let mut session = Session::open(&Settings::new(2, &[me + 1]).limit(FRAMES), Digest(0))?;
    let mut peer = Peer::open(&mut session, &Match::new(2, me, &[0, 1], draw()).number(NUMBER).silent_after(100_000))?;
    let (start, mut bytes, mut wait, mut past) = (Instant::now(), [0; 2048], 0, 0);
    while past < PAST_LAST {
        let now = (start.elapsed() * SPEED).as_millis() as u32;
        while let Ok(length) = line.recv(&mut bytes) {
            let _ = peer.receive(&mut session, &bytes[..length], now); // what is refused has changed nothing
        }
        wait = play(&mut session, &mut peer, me, wait, now)?;
        if let Some(datagram) = peer.send(&session, 1 - me, now)? {
            let _ = line.send(&datagram); // what can't be sent is lost
        }
        past += u32::from(session.settled() == FRAMES);
        thread::sleep(Duration::from_secs(1) / 60 / SPEED);
    }
    let (settled, state) = session.settled_state().ok_or("the game has panicked")?;
    println!("machine {me}: settled {settled} state {state}");
    Ok(())
}
