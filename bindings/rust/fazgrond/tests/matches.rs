//! Matches of two machines in one process, over lines that lose datagrams and bring the others late, with guesses, with words held
//! back, and without; and a viewer of one of them.
#[allow(dead_code)] // not all of it is used here
mod random_numbers;

use fazgrond::{
    bye, Datagram, Done, Error, Event, Field, Game, Handle, Line, LineSettings, Match, Peer, Plays, RemoteWord, Row,
    Session, Settings, Viewer,
};
use random_numbers::Random;
use std::collections::BTreeMap;

const FRAMES: u32 = 600;
const TURN: u32 = 16;
const OWNERS: [u8; 2] = [0, 1];

/// A digest of all rows, which counts its steps.
#[derive(Default)]
struct Digest {
    sum: u64,
    steps: u32,
}

impl Game for Digest {
    type State = u64;

    fn save(&self) -> u64 {
        self.sum
    }

    fn load(&mut self, sum: &u64) {
        self.sum = *sum;
    }

    fn advance(&mut self, row: &Row) {
        for word in row.cells() {
            self.sum = (self.sum ^ u64::from(word.unwrap_or(9))).wrapping_mul(0x100_0000_01b3) + 1;
        }
        self.steps += 1;
    }
}

/// A button that a player holds for some ten frames.
fn word_of(machine: u8, frame: u32) -> u32 {
    let run = frame / (5 + 2 * u32::from(machine));
    Random(u64::from(run) << 8 | u64::from(machine)).below(2)
}

/// What is on the way to one end. One datagram in five is lost, and the others come one to five turns later.
#[derive(Default)]
struct Way {
    under_way: BTreeMap<(u32, usize), Datagram>,
    count: usize,
}

impl Way {
    fn send(&mut self, random: &mut Random, turn: u32, sent: Option<Datagram>) {
        if let Some(sent) = sent.filter(|_| !random.one_in(5)) {
            self.under_way.insert((turn + 1 + random.below(5), self.count), sent);
            self.count += 1;
        }
    }

    fn come(&mut self, turn: u32) -> impl Iterator<Item = Datagram> {
        let later = self.under_way.split_off(&(turn + 1, 0));
        std::mem::replace(&mut self.under_way, later).into_values()
    }
}

fn match_of(me: u8, draw: u64) -> Match {
    Match::new(2, me, &OWNERS, draw).number(7).digest(8).silent_after(5000).notify_after(2000)
}

fn settings_of(me: u8) -> Settings {
    Settings::new(2, &[me + 1]).limit(FRAMES)
}

struct Machine {
    me: u8,
    session: Session<Digest>,
    peer: Peer,
    to_me: Way,
    wait: u32,
    grafted: u32,
    /// The job that ran while words waited, and of how many.
    done: Option<Done<u64>>,
    covered: usize,
}

impl Machine {
    fn new(me: u8, held_turns: u32) -> Machine {
        let mut session = Session::open(&settings_of(me), Digest::default()).unwrap();
        let peer = Peer::open(&mut session, &match_of(me, 70 + u64::from(me)).held_turns(held_turns)).unwrap();
        Machine { me, session, peer, to_me: Way::default(), wait: 0, grafted: 0, done: None, covered: 0 }
    }

    fn turn(&mut self, turn: u32, is_guessing: bool) {
        for bytes in self.to_me.come(turn) {
            let heard = self.peer.receive(&mut self.session, &bytes, turn * TURN);
            assert!(matches!(heard, Ok(()) | Err(Error::NotSealed)), "{heard:?}");
        }
        self.hand_over();
        if self.peer.is_running() && self.wait == 0 {
            let word = word_of(self.me, self.session.frame());
            let given = self.session.add_local_input(self.me + 1, word);
            assert!(matches!(given, Ok(()) | Err(Error::PredictionThreshold | Error::FrameLimit)), "{given:?}");
        }
        self.wait = self.wait.saturating_sub(1);
        self.peer.turn(&mut self.session, turn * TURN).unwrap();
        let (_, state) = self.session.settled_state().unwrap();
        let digest = *state;
        self.peer.note_settled(&self.session, digest).unwrap();
        if is_guessing {
            self.guess();
        }
        self.guess_waiting();
        while let Some(event) = self.peer.event() {
            match event {
                Event::TimeSync { frames_ahead } => self.wait = frames_ahead,
                Event::Synchronizing { .. } | Event::Synchronized { .. } | Event::Running => {}
                other => panic!("machine {} is told {other:?}", self.me),
            }
        }
    }

    /// The other player may have pressed or let go its button in each of the frames whose words haven't come.
    fn guess(&mut self) {
        let other = 2 - self.me;
        let (frame, known) = (self.session.frame(), self.session.confirmed(other).unwrap());
        let last = known.checked_sub(1).and_then(|frame| self.session.confirmed_word(other, frame)).unwrap_or(0);
        for held in 0..frame.saturating_sub(known).min(8) {
            let mut words = vec![last; held as usize];
            words.push(1 - last);
            if let Ok(Some(job)) = self.session.guess(other, &words, frame) {
                self.grafted += self.session.graft(job.run(&mut Digest::default())).unwrap_or(0);
            }
        }
    }

    /// Hands over the words that make no frame run again, and those that have waited for their turns.
    fn hand_over(&mut self) {
        if let Some(done) = self.done.take() {
            self.grafted += self.session.graft(done).unwrap_or(0);
        }
        let all = self.peer.waiting().len();
        let ready = [all, self.covered.min(all)].into_iter();
        let ready = ready.filter(|count| *count > 0).find(|count| self.peer.rerun(&self.session, *count) == Ok(0));
        self.peer.hand_over(&mut self.session, ready.unwrap_or(0)).unwrap();
        self.peer.hand_over_due(&mut self.session).unwrap();
    }

    fn guess_waiting(&mut self) {
        self.covered = self.peer.waiting().len();
        if self.covered > 0 {
            let until = FRAMES.min(self.session.frame() + 1);
            let job = self.session.guess_waiting(&self.peer, until).unwrap();
            self.done = job.map(|job| job.run(&mut Digest::default()));
        }
    }

    /// How many frames were run more than once: fewer than none if a job ran frames before.
    fn again(&self) -> i64 {
        i64::from(self.session.game().steps) - i64::from(self.session.frame())
    }
}

struct Watched {
    line: Line,
    viewer: Viewer,
    to_line: Way,
    to_viewer: Way,
    game: Digest,
}

impl Watched {
    fn new() -> Watched {
        let settings = |draw| LineSettings::new(9, draw, 0, 2, &OWNERS).digest(8).silent_after(5000);
        Watched {
            line: Line::open(&settings(90)).unwrap(),
            viewer: Viewer::open(&settings(91)).unwrap(),
            to_line: Way::default(),
            to_viewer: Way::default(),
            game: Digest::default(),
        }
    }

    fn turn(&mut self, random: &mut Random, turn: u32, session: &impl Plays) {
        for bytes in self.to_line.come(turn) {
            let heard = self.line.receive(&bytes, turn * TURN);
            assert!(matches!(heard, Ok(()) | Err(Error::NotSealed)), "{heard:?}");
        }
        for bytes in self.to_viewer.come(turn) {
            let heard = self.viewer.receive(&bytes, turn * TURN);
            assert!(matches!(heard, Ok(_) | Err(Error::NotSealed)), "{heard:?}");
        }
        while let Some(row) = self.viewer.row() {
            self.game.advance(&row);
        }
        self.to_viewer.send(random, turn, self.line.send(session, turn * TURN));
        self.to_line.send(random, turn, self.viewer.send(turn * TURN));
    }
}

struct Scene {
    machines: [Machine; 2],
    watched: Watched,
    random: Random,
    turn: u32,
    is_guessing: bool,
}

impl Scene {
    fn new(is_guessing: bool) -> Scene {
        Scene::holding(is_guessing, [0, 0])
    }

    /// Machines that hold words back for so many turns.
    fn holding(is_guessing: bool, turns: [u32; 2]) -> Scene {
        let machines = [0, 1].map(|me| Machine::new(me, turns[usize::from(me)]));
        Scene { machines, watched: Watched::new(), random: Random(3), turn: 0, is_guessing }
    }

    fn turn(&mut self) {
        for machine in &mut self.machines {
            machine.turn(self.turn, self.is_guessing);
        }
        let [one, two] = &mut self.machines;
        two.to_me.send(&mut self.random, self.turn, one.peer.send(&one.session, 1, self.turn * TURN).unwrap());
        one.to_me.send(&mut self.random, self.turn, two.peer.send(&two.session, 0, self.turn * TURN).unwrap());
        self.watched.turn(&mut self.random, self.turn, &one.session);
        self.turn += 1;
        assert!(self.turn < 10 * FRAMES, "the match stands");
    }

    fn play_to(&mut self, frames: u32) {
        while self.machines.iter().any(|machine| machine.session.settled() < frames) {
            self.turn();
        }
    }

    fn play_to_end(&mut self) {
        while self.watched.game.steps < FRAMES {
            self.turn();
        }
    }
}

/// The game that is run once, with each word in its frame.
fn without_a_network() -> u64 {
    let settings = Settings::new(2, &[1, 2]);
    let mut session = Session::open(&settings, Digest::default()).unwrap();
    for frame in 0..FRAMES {
        for machine in OWNERS {
            session.add_local_input(machine + 1, word_of(machine, frame)).unwrap();
        }
        session.advance_frame().unwrap();
    }
    session.game().sum
}

#[test]
fn guesses_save_frames_and_change_no_state() {
    let [mut plain, mut guessed] = [false, true].map(Scene::new);
    for scene in [&mut plain, &mut guessed] {
        scene.play_to(FRAMES);
        scene.play_to_end();
        for machine in &scene.machines {
            assert_eq!(machine.session.settled_state(), Some((FRAMES, &without_a_network())));
            assert_eq!(machine.session.game().sum, without_a_network());
        }
        assert_eq!(scene.watched.game.sum, without_a_network());
    }
    for (plain, guessed) in plain.machines.iter().zip(&guessed.machines) {
        assert!(plain.again() > 100, "{} frames are run again", plain.again());
        assert!(guessed.again() < plain.again() / 4, "{} of {} frames are run again", guessed.again(), plain.again());
        assert!(guessed.grafted > FRAMES);
        assert!(guessed.session.claim().unwrap().starts_with(b"rollcert"));
    }
}

#[test]
fn words_that_wait_make_no_frame_run_again() {
    for turns in [[0, 2], [3, 8]] {
        let mut scene = Scene::holding(false, turns);
        scene.play_to(FRAMES);
        for (machine, turns) in scene.machines.iter().zip(turns) {
            assert_eq!(machine.session.settled_state(), Some((FRAMES, &without_a_network())));
            let again = machine.again();
            assert!(
                if turns == 0 { again > 100 } else { again <= 0 && machine.grafted > 100 },
                "{again} frames are run again"
            );
        }
    }
}

#[test]
fn words_wait_for_their_turns() {
    let mut session = Session::open(&settings_of(0), Digest::default()).unwrap();
    assert_eq!(Peer::open(&mut session, &match_of(0, 1).held_turns(9)).map(|_| ()), Err(Error::InvalidRequest));
    let mut machines = [Machine::new(0, 0), Machine::new(1, 3)];
    for turn in 0..8 {
        for (me, other) in [(0, 1), (1, 0)] {
            let Machine { session, peer, .. } = &mut machines[me];
            peer.poll(session, turn).unwrap();
            let sent = peer.send(session, other as u8, turn).unwrap().unwrap();
            let Machine { session, peer, .. } = &mut machines[other];
            let _ = peer.receive(session, &sent, turn);
        }
    }
    let [one, two] = &mut machines;
    one.session.add_local_input(1, 7).unwrap();
    two.session.add_local_input(2, 5).unwrap();
    two.session.advance_frame().unwrap();
    let sent = one.peer.send(&one.session, 1, 8).unwrap().unwrap();
    two.peer.receive(&mut two.session, &sent, 8).unwrap();
    assert_eq!(two.peer.waiting(), [RemoteWord { player: 1, frame: 0, word: 7 }]);
    assert_eq!((two.session.confirmed(1), two.peer.rerun(&two.session, 1)), (Some(0), Ok(1)));
    assert_eq!(two.peer.rerun(&two.session, 0), Err(Error::InvalidRequest));
    assert!(!two.peer.is_pressed(&two.session));
    let answer = two.peer.send(&two.session, 0, 8).unwrap().unwrap();
    one.peer.receive(&mut one.session, &answer, 8).unwrap();
    assert_eq!(one.peer.stats(1).unwrap().words_queued, 0); // it is acknowledged
    let handed = [(); 4].map(|()| two.peer.hand_over_due(&mut two.session).unwrap());
    assert_eq!((handed, two.session.confirmed(1)), ([0, 0, 1, 0], Some(1)));
    assert_eq!(two.session.guess_waiting(&two.peer, 1).map(|_| ()), Err(Error::InvalidRequest));
}

#[test]
fn another_session_is_refused() {
    let mut scene = Scene::new(false);
    scene.play_to(50);
    let now = scene.turn * TURN;
    let (machine, other) = {
        let [one, two] = &mut scene.machines;
        (one, two.peer.send(&two.session, 0, now).unwrap().unwrap())
    };
    let before = machine.peer.stats(1);
    let mut fresh = Handle::open(&settings_of(0)).unwrap();
    assert_eq!(machine.peer.receive(&mut fresh, &other, now), Err(Error::OtherSession));
    assert_eq!(machine.peer.poll(&mut fresh, now), Err(Error::OtherSession));
    assert_eq!(machine.peer.send(&fresh, 1, now).map(|_| ()), Err(Error::OtherSession));
    assert_eq!(machine.peer.note_settled(&fresh, 1), Err(Error::OtherSession));
    assert_eq!((fresh.log_length(), machine.peer.event()), (0, None));
    assert_eq!(machine.peer.stats(1), before);
    assert_eq!(machine.peer.receive(&mut machine.session, &other, now), Ok(()));
    scene.play_to(100);
}

#[test]
fn a_machine_leaves() {
    let mut scene = Scene::new(false);
    scene.play_to(50);
    let [one, two] = &mut scene.machines;
    assert!(one.peer.bye(0, bye::LEAVES).is_none() && one.peer.bye(7, bye::LEAVES).is_none());
    let farewell = one.peer.bye(1, bye::OWN).unwrap();
    two.peer.receive(&mut two.session, &farewell, scene.turn * TURN).unwrap();
    assert_eq!(two.peer.receive(&mut two.session, &farewell, scene.turn * TURN), Err(Error::MachineGone));
    two.peer.turn(&mut two.session, scene.turn * TURN).unwrap();
    assert_eq!(two.peer.event(), Some(Event::Left { machine: 0, bye: bye::OWN }));
    assert_eq!(two.peer.event(), Some(Event::Disconnected { player: 1 }));
    assert!(two.peer.send(&two.session, 0, scene.turn * TURN).unwrap().is_none());
    let said = scene.watched.line.bye().unwrap();
    scene.watched.viewer.receive(&said, scene.turn * TURN).unwrap();
    assert!(scene.watched.viewer.look(0).has_ended && scene.watched.viewer.send(0).is_none());
}

/// If nothing is said of times, a machine of which nothing comes is told of after 750 milliseconds, and gone after 5,000.
#[test]
fn a_machine_that_stops_is_gone() {
    let mut both = [0, 1].map(|me| {
        let mut handle = Handle::open(&settings_of(me)).unwrap();
        let peer = Peer::open(&mut handle, &Match::new(2, me, &OWNERS, 70 + u64::from(me)).number(7)).unwrap();
        (handle, peer)
    });
    let mut told = Vec::new();
    for turn in 0..400 {
        for me in 0..2u8 {
            let (handle, peer) = &mut both[usize::from(me)];
            peer.poll(handle, turn * TURN).unwrap();
            told.extend(std::iter::from_fn(|| peer.event()).map(|event| (turn * TURN, me, event)));
            let sent = peer.send(handle, 1 - me, turn * TURN).unwrap();
            let (handle, peer) = &mut both[usize::from(1 - me)];
            if let Some(sent) = sent.filter(|_| turn < 20 || me == 1) {
                let _ = peer.receive(handle, &sent, turn * TURN);
            }
        }
        if turn == 20 {
            told.clear();
        }
    }
    let last = 19 * TURN; // when machine 1 heard the other one, which answered what it had sent in the turn before
    let (first, second) = match told[..] {
        [(first, 1, Event::Interrupted { machine: 0, .. }), (second, 1, Event::Left { machine: 0, bye: 0 }), ..] => {
            (first, second)
        }
        _ => panic!("{told:?}"),
    };
    assert!((750..800).contains(&(first - last)) && (4900..5200).contains(&(second - last)), "{told:?}");
}

/// What the second of two machines is told before the match begins, whose matches are these.
fn told_of(matches: [Match; 2]) -> Vec<Event> {
    let mut at = 0;
    let mut both = matches.map(|of| {
        let mut handle = Handle::open(&settings_of(at)).unwrap();
        at += 1;
        let peer = Peer::open(&mut handle, &of).unwrap();
        (handle, peer)
    });
    for turn in 0..20 {
        let (me, other) = (turn % 2, 1 - turn % 2);
        let (handle, peer) = &mut both[me];
        peer.poll(handle, turn as u32 * TURN).unwrap();
        let sent = peer.send(handle, other as u8, turn as u32 * TURN).unwrap();
        let (handle, peer) = &mut both[other];
        sent.map(|bytes| peer.receive(handle, &bytes, turn as u32 * TURN));
        assert!(!peer.is_running());
    }
    std::iter::from_fn(|| both[1].1.event()).collect()
}

#[test]
fn matches_that_differ() {
    let of = |me: u8| match_of(me, 70 + u64::from(me)).opening(5);
    for (other, field) in [(of(1).digest(9), Field::Digest), (of(1).opening(6), Field::Opening)] {
        assert!(told_of([of(0), other]).contains(&Event::Mismatch { machine: 0, field }));
    }
}

#[test]
fn matches_that_cant_be() {
    let mut session = Handle::open(&settings_of(0)).unwrap();
    let mut refused = |of: Match| Peer::open(&mut session, &of).map(|_| ()).unwrap_err();
    assert_eq!(refused(match_of(0, 0)), Error::InvalidRequest);
    assert_eq!(refused(match_of(1, 1)), Error::InvalidPlayer);
    assert_eq!(refused(match_of(2, 1)), Error::InvalidMachine);
    assert_eq!(refused(Match::new(2, 0, &[0, 1, 1], 1).number(7)), Error::InvalidPlayer);
    assert_eq!(refused(Match::new(2, 0, &OWNERS, 1)), Error::NoNumber);
    assert_eq!(refused(match_of(0, 1).words(2)), Error::TwoOwners);
    assert!(Line::open(&LineSettings::new(9, 0, 0, 2, &OWNERS)).is_err());
    assert!(Viewer::open(&LineSettings::new(9, 1, 2, 2, &OWNERS)).is_err());
}

#[test]
fn peers_may_be_sent() {
    fn is_send<T: Send>() {}
    is_send::<Peer>();
    is_send::<Line>();
    is_send::<Viewer>();
    is_send::<Handle>();
}
