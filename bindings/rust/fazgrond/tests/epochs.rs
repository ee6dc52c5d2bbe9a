//! Matches that go on in epochs: two machines mark, and come to the state of the game that is run once over all words, in the same epochs.
//! Somebody watches each of them, and is told of the first epoch after its end.

use fazgrond::{
    ticket, Datagram, Epoch, Error, Event, Game, Handle, Line, LineSettings, Mark, Match, Peer, Request, Row, Session,
    Settings, Viewer,
};
use std::collections::VecDeque;

const FRAMES: u64 = 200;
const TURN: u32 = 16;

/// Who may come, and the ticket of the name 3: hashlib of Python made it.
const COMERS: u64 = 0xfedc_ba98_7654_3210;
const TICKET: u64 = 0xa00e_d4d7_0000_0003;

/// 31 times the number and the words.
struct Sum(u32);

impl Sum {
    fn add(&mut self, words: impl Iterator<Item = u32>) {
        self.0 = words.fold(self.0, |sum, word| (31 * sum + word) % 1_000_003);
    }
}

impl Game for Sum {
    type State = u32;

    fn save(&self) -> u32 {
        self.0
    }

    fn load(&mut self, state: &u32) {
        self.0 = *state;
    }

    fn advance(&mut self, row: &Row) {
        self.add(row.cells().map(|word| word.expect("nobody has left")));
    }
}

fn word_of(player: u8, frame: u64) -> u32 {
    (frame / (3 + u64::from(player)) % 5) as u32 + u32::from(player)
}

struct Machine {
    me: u8,
    session: Session<Sum>,
    peer: Peer,
    line: Line,
    viewer: Viewer,
    is_watched: bool,
    epochs: Vec<Epoch>,
    here: Vec<Datagram>,
    coming: VecDeque<Vec<Datagram>>,
}

fn of(me: u8) -> Match {
    Match::new(2, me, &[0, 1], 70 + u64::from(me)).number(7).comers(COMERS)
}

fn machine(me: u8) -> Machine {
    let settings = Settings::new(2, &[me + 1]);
    let mut session = Session::open(&settings, Sum(0)).unwrap();
    let epoch = Epoch::first(&of(me), &settings);
    assert_eq!((&epoch.owners[..], &epoch.delays[..]), (&[Some(0), Some(1)][..], &[0, 0][..]));
    assert_eq!((epoch.id, epoch.base, epoch.words, epoch.threshold, epoch.machines), (0, 0, 1, 8, 2));
    assert_eq!((0..=255).filter(|machine| epoch.has(*machine)).collect::<Vec<u8>>(), [0, 1]);
    let peer = Peer::open_lasting(&mut session, &of(me), &epoch).unwrap();
    assert_eq!((peer.epoch(), stayed(&peer)), (Some(epoch.clone()), Vec::new()));
    let mut line = Line::open(&line_of(me, 21)).unwrap();
    assert!(line.send_before(&peer, 0).is_none());
    let viewer = Viewer::open(&line_of(me, 22)).unwrap();
    let (is_watched, epochs) = (true, vec![epoch]);
    Machine { me, session, peer, line, viewer, is_watched, epochs, here: Vec::new(), coming: VecDeque::new() }
}

fn line_of(host: u8, draw: u64) -> LineSettings {
    LineSettings::new(8, draw, host, 2, &[0, 1])
}

/// Which machines were in the epoch before, and are in this one.
fn stayed(peer: &Peer) -> Vec<u8> {
    (0..=255).filter(|machine| peer.has_stayed(*machine)).collect()
}

impl Machine {
    /// The frame of the whole match.
    fn frame(&self) -> u64 {
        self.epochs[self.epochs.len() - 1].base + u64::from(self.session.frame())
    }

    /// Goes on in the next epoch if this one is over. Where somebody watches, what has come is played first, so that all rows are told
    /// of the epoch that may be over.
    fn go_on(&mut self) {
        let before = self.frame();
        if self.is_watched && self.session.has_news() {
            self.session.synchronize_input().unwrap();
        }
        if let Some(frames) = self.peer.go_on(&mut self.session).unwrap() {
            self.epochs.push(self.peer.epoch().unwrap());
            assert_eq!((self.session.frame(), self.frame()), (frames, before));
            assert_eq!(stayed(&self.peer), [0, 1]);
            if self.is_watched && self.epochs.len() == 2 {
                self.tell_past();
            }
        }
    }

    /// Who begins to watch only now is told all rows of the epoch before, since no word of the other machine in this one has come.
    fn tell_past(&mut self) {
        let mut frame = 0;
        for now in 0..20 {
            let sent = self.line.send_before(&self.peer, now * TURN).expect("the past is kept");
            let _ = self.viewer.receive(&sent, now * TURN);
            while let Some(row) = self.viewer.row() {
                assert!(row.cells().eq((0..2).map(|player| Some(word_of(player, frame)))), "frame {frame}: {row:?}");
                frame += 1;
            }
            let _ = self.line.receive(&self.viewer.send(now * TURN).unwrap(), now * TURN);
        }
        assert_eq!(frame, self.epochs[1].base);
    }

    /// A turn, and what it sends.
    fn turn(&mut self, mark: Option<&Mark>, now: u32) -> Vec<Datagram> {
        for bytes in std::mem::take(&mut self.here) {
            let _ = self.peer.receive(&mut self.session, &bytes, now);
        }
        self.peer.poll(&mut self.session, now).unwrap();
        self.go_on();
        let frame = self.frame();
        if self.peer.is_running() && frame < FRAMES {
            if let Some(mark) = mark {
                let is_void = (self.me, now) == (1, 80 * TURN) && self.is_watched;
                let again = Err(if is_void { Error::WrongTicket } else { Error::Marked });
                let first = self.peer.mark(&self.session, self.me + 1, mark);
                assert_eq!(first, if is_void { again } else { Ok(()) });
                assert_eq!(self.peer.mark(&self.session, self.me + 1, mark), again);
                assert_eq!(self.peer.mark(&self.session, 2 - self.me, mark), Err(Error::InvalidPlayer));
            }
            let _ = self.session.add_local_input(self.me + 1, word_of(self.me, frame));
        }
        self.peer.turn(&mut self.session, now).unwrap();
        while let Some(event) = self.peer.event() {
            assert!(!matches!(event, Event::Left { .. } | Event::Dropped | Event::Desync { .. }), "{event:?}");
        }
        let sent = self.peer.send(&self.session, 1 - self.me, now).unwrap();
        sent.into_iter().chain(self.peer.send_before(1 - self.me, now)).collect()
    }
}

/// Which mark a machine puts in a turn. The second one isn't put, since its tag isn't that of its name. Nobody gets a player by the third
/// one, for none is free.
fn mark_in(turn: u32, me: u8) -> Option<Mark> {
    match (turn, me) {
        (40, 0) => Some(Mark::new()),
        (80, 1) => Some(Mark::new().threshold(7).newcomer(TICKET ^ 1, &[1])),
        (120, 0) => Some(Mark::new().threshold(6).newcomer(ticket(COMERS, 3), &[2])),
        _ => None,
    }
}

/// Two machines, each of which hears in a turn what the other sent so many turns before.
fn machines(lag: usize, is_watched: bool) -> [Machine; 2] {
    [0, 1].map(|me| Machine { is_watched, coming: vec![Vec::new(); lag].into(), ..machine(me) })
}

/// A turn of both.
fn take_turn(all: &mut [Machine; 2], turn: u32, mark_in: impl Fn(u32, u8) -> Option<Mark>) {
    for me in 0..2u8 {
        let it = &mut all[usize::from(me)];
        it.here = it.coming.pop_front().unwrap_or_default();
        let sent = it.turn(mark_in(turn, me).as_ref(), turn * TURN);
        all[usize::from(1 - me)].coming.push_back(sent);
    }
}

/// What the game comes to without a network.
fn alone() -> u32 {
    let mut alone = Sum(0);
    for frame in 0..FRAMES {
        alone.add((0..2).map(|player| word_of(player, frame)));
    }
    alone.0
}

#[test]
fn who_may_come() {
    let made = [0, 3, u32::MAX].map(|name| ticket(COMERS, name));
    assert_eq!(made, [0xadfa_7423_0000_0000, TICKET, 0x6994_a5dd_ffff_ffff]);
}

#[test]
fn a_match_goes_on_in_epochs() {
    let mut all = machines(1, true);
    (0..600).for_each(|turn| take_turn(&mut all, turn, mark_in));
    let [one, two] = &all;
    assert_eq!(one.epochs, two.epochs);
    assert_eq!(one.epochs.iter().map(|it| it.threshold).collect::<Vec<_>>(), [8, 8, 6]);
    for it in &mut all {
        let settled = it.epochs[2].base + u64::from(it.session.settled());
        assert_eq!((it.frame(), settled, it.session.game().0), (FRAMES, FRAMES, alone()));
        let seen = it.line.look(0);
        assert_eq!((seen.is_playing, seen.has_ended, it.line.send_before(&it.peer, 0).is_none()), (true, false, true));
    }
}

/// The requests of a seam come in two parts, the epoch's that is over and the next one's, and none of them is left to the next call:
/// though the session is given none between the poll and the seam.
#[test]
fn a_seam_needs_no_call_before() {
    for (marker, lag) in [(0, 1), (1, 3), (0, 5)] {
        let mut all = machines(lag, false);
        for turn in 0..600 {
            take_turn(&mut all, turn, |turn, me| (turn % 50 == 49 && me == marker).then(Mark::new));
        }
        assert!(all[0].epochs.len() > 4 && all[0].epochs == all[1].epochs, "{:?}", all[0].epochs);
        for it in &all {
            let base = it.epochs[it.epochs.len() - 1].base;
            assert_eq!((it.frame(), base + u64::from(it.session.settled())), (FRAMES, FRAMES));
            assert_eq!(it.session.game().0, alone());
        }
    }
}

#[test]
fn jobs_are_over_with_their_epoch() {
    let mut all = machines(1, true);
    let mut job = None;
    for turn in 0..200 {
        take_turn(&mut all, turn, |turn, me| (turn == 60 && me == 0).then(Mark::new));
        let it = &mut all[0];
        if turn == 50 {
            job = it.session.guess(2, &[77], it.session.frame() + 2).unwrap();
        }
    }
    assert_eq!(all[0].epochs.len(), 2);
    let done = job.expect("frames were to be run").run(&mut Sum(0));
    assert_eq!(all[0].session.graft(done), Err(Error::NoJob));
}

/// What a handle's caller is to do goes on by its slots: the next epoch begins with the state in slot 0.
#[test]
fn a_handle_goes_on() {
    let settings = Settings::new(2, &[1]);
    let mut handle = Handle::open(&settings).unwrap();
    let mut peer = Peer::open_lasting(&mut handle, &of(0), &Epoch::first(&of(0), &settings)).unwrap();
    assert_eq!(peer.go_on(&mut handle), Ok(None));
    assert!(handle.requests().all(|request| !matches!(request, Request::Step(_))));
    assert!(peer.send_before(1, 0).is_none());
}

#[test]
fn what_is_refused() {
    let settings = Settings::new(2, &[1]);
    let mut session = Session::open(&settings, Sum(0)).unwrap();
    let mut peer = Peer::open(&mut session, &of(0)).unwrap();
    assert_eq!(peer.mark(&session, 1, &Mark::new()), Err(Error::NoMarks));
    assert_eq!((peer.epoch(), peer.go_on(&mut session)), (None, Ok(None)));
    assert!(stayed(&peer).is_empty() && Line::open(&line_of(0, 21)).unwrap().send_before(&peer, 0).is_none());
    let epoch = Epoch { threshold: 7, ..Epoch::first(&of(0), &settings) };
    assert_eq!(Peer::open_lasting(&mut session, &of(0), &epoch).map(|_| ()), Err(Error::InvalidRequest));
    let epoch = Epoch { delays: vec![1, 0], ..Epoch::first(&of(0), &settings) };
    assert_eq!(Peer::open_lasting(&mut session, &of(0), &epoch).map(|_| ()), Err(Error::InvalidRequest));
}
