//! Machines that carry for each other: of three two don't hear each other for longer than the time of silence, nobody is gone, and all
//! come to the state of the game that is run once over all words.

use fazgrond::{Datagram, Event, Game, Match, Peer, Row, Session, Settings};

const MACHINES: u8 = 3;
const FRAMES: u32 = 200;
const TURN: u32 = 16;

/// 31 times the number and the words.
struct Sum(u32);

impl Sum {
    fn add(&mut self, words: impl Iterator<Item = u32>) {
        self.0 = words.fold(self.0, |sum, word| (31 * sum + word) % 1_000_003);
    }
}

impl Game for Sum {
    type State = u32;

    fn save(&self) -> u32 {
        self.0
    }

    fn load(&mut self, state: &u32) {
        self.0 = *state;
    }

    fn advance(&mut self, row: &Row) {
        self.add(row.cells().map(|word| word.expect("nobody has left")));
    }
}

fn word_of(player: u8, frame: u32) -> u32 {
    frame / (3 + u32::from(player)) % 5 + u32::from(player)
}

struct Machine {
    session: Session<Sum>,
    peer: Peer,
    here: Vec<Datagram>,
    coming: Vec<Datagram>,
}

fn machine(me: u8) -> Machine {
    let mut session = Session::open(&Settings::new(MACHINES, &[me + 1]), Sum(0)).unwrap();
    let of = Match::new(MACHINES, me, &[0, 1, 2], 70 + u64::from(me)).number(7).silent_after(500);
    let peer = Peer::open_carrying(&mut session, &of).unwrap();
    Machine { session, peer, here: Vec::new(), coming: Vec::new() }
}

/// What a machine sends in a turn, and to whom.
fn turn(all: &mut [Machine], me: u8, now: u32) -> Vec<(u8, Datagram)> {
    let Machine { session, peer, here, .. } = &mut all[usize::from(me)];
    for bytes in here.drain(..) {
        let _ = peer.receive(session, &bytes, now);
    }
    let frame = session.frame();
    if peer.is_running() && frame < FRAMES {
        let _ = session.add_local_input(me + 1, word_of(me, frame));
    }
    peer.turn(session, now).unwrap();
    while let Some(event) = peer.event() {
        let is_of_who_is_gone = matches!(event, Event::Left { .. } | Event::Dropped | Event::CutOff { .. });
        assert!(!is_of_who_is_gone, "machine {me}: {event:?}");
    }
    let mut sent = Vec::new();
    for to in 0..MACHINES {
        sent.extend(peer.send(session, to, now).unwrap().map(|bytes| (to, bytes)));
    }
    while let Some(more) = peer.send_more() {
        sent.push(more);
    }
    sent
}

#[test]
fn nobody_is_gone_whose_line_breaks() {
    let mut all: Vec<Machine> = (0..MACHINES).map(machine).collect();
    for at in 0..600 {
        for it in &mut all {
            it.here = std::mem::take(&mut it.coming);
        }
        for me in 0..MACHINES {
            for (to, bytes) in turn(&mut all, me, at * TURN) {
                if at < 40 || me + to != 1 {
                    all[usize::from(to)].coming.push(bytes);
                }
            }
        }
    }
    let mut alone = Sum(0);
    for frame in 0..FRAMES {
        alone.add((0..MACHINES).map(|player| word_of(player, frame)));
    }
    for it in &all {
        assert_eq!((it.session.frame(), it.session.settled(), it.session.game().0), (FRAMES, FRAMES, alone.0));
    }
}

#[test]
fn a_peer_that_does_not_carry_has_nothing_more_to_send() {
    let mut session = Session::open(&Settings::new(2, &[1]), Sum(0)).unwrap();
    let of = Match::new(2, 0, &[0, 1], 5).number(7);
    assert!(Peer::open(&mut session, &of).unwrap().send_more().is_none());
    assert!(Peer::open_carrying(&mut session, &of).unwrap().send_more().is_none());
}
