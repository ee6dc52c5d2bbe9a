//! Random scripts: each call is made of a handle, of a session with a game, and of a model, and all must answer the same.
mod model;
mod random_numbers;

use fazgrond::{Done, Entry, Error, Game, Handle, Job, Request, Row, Session, Settings};
use model::{Model, Rules};
use random_numbers::Random;
use std::collections::{BTreeMap, VecDeque};
use std::{mem, thread};

/// A state that knows all rows that led to it, and the number that a game of them comes to.
#[derive(Clone, PartialEq, Debug, Default)]
struct State {
    rows: Vec<model::Row>,
    number: u64,
}

impl State {
    fn after(&self, row: &model::Row) -> State {
        let mut rows = self.rows.clone();
        rows.push(row.clone());
        let added: u64 = (1..).zip(row).map(|(player, word)| word.map_or(5, |word| player * u64::from(word))).sum();
        State { rows, number: (10 * self.number + added) % 1_000_000 }
    }

    fn of(rows: &[model::Row]) -> State {
        rows.iter().fold(State::default(), |state, row| state.after(row))
    }

    /// Carries out a step twice, and compares.
    fn step(&mut self, row: &Row) {
        let row = row.cells().collect();
        let twice = [self.after(&row), self.after(&row)];
        assert_eq!(twice[0], twice[1]);
        let [next, _] = twice;
        *self = next;
    }
}

impl Game for State {
    type State = State;

    fn save(&self) -> State {
        self.clone()
    }

    fn load(&mut self, state: &State) {
        self.clone_from(state);
    }

    fn advance(&mut self, row: &Row) {
        self.step(row);
    }
}

/// What is in a slot.
#[derive(Debug)]
enum Place {
    Free,
    Taken(State),
    /// It is for a state of a job that is out, which may be there already.
    OfJob(Option<State>),
    /// It was for a state of a job that was given up.
    GivenUp,
}

/// A game that carries out requests, and looks that they can be. Those of jobs it leaves to be carried out aside.
struct Slots {
    current: State,
    slots: Vec<Place>,
    limit: usize,
    most: usize,
    /// The slots from which jobs that are out start.
    starts: Vec<usize>,
    of_job: Vec<Request>,
    steps: usize,
    saves: usize,
    requests: usize,
}

impl Slots {
    fn new(limit: usize) -> Slots {
        Slots {
            current: State::default(),
            slots: vec![Place::Taken(State::default())],
            limit,
            most: 1,
            starts: Vec::new(),
            of_job: Vec::new(),
            steps: 0,
            saves: 0,
            requests: 0,
        }
    }

    /// Counts anew.
    fn begin(&mut self) {
        (self.steps, self.saves, self.requests) = (0, 0, 0);
    }

    fn carry_out(&mut self, request: Request) {
        self.requests += 1;
        match request {
            Request::Load(slot) => self.current = self.state(slot).clone(),
            Request::Save(slot) => {
                self.take(slot, Place::Taken(self.current.clone()));
                self.saves += 1;
            }
            Request::Step(row) => {
                self.current.step(&row);
                self.steps += 1;
            }
            Request::Free(slot) => {
                assert!(!self.starts.contains(&slot), "slot {slot}, from which a job starts, is freed");
                let freed = mem::replace(&mut self.slots[slot], Place::Free);
                assert!(matches!(freed, Place::Taken(_) | Place::GivenUp), "slot {slot} is freed: {freed:?}");
            }
            Request::JobSave(slot) => {
                self.take(slot, Place::OfJob(None));
                self.of_job.push(request);
            }
            Request::JobLoad(_) | Request::JobStep(_) => self.of_job.push(request),
        }
    }

    fn state(&self, slot: usize) -> &State {
        match &self.slots[slot] {
            Place::Taken(state) => state,
            other => panic!("slot {slot} is loaded: {other:?}"),
        }
    }

    fn take(&mut self, slot: usize, place: Place) {
        assert_eq!(slot, self.least_free(), "a save goes into the least free slot");
        assert!(slot < self.limit, "slot {slot} is past the limit");
        if slot == self.slots.len() {
            self.slots.push(Place::Free);
        }
        self.slots[slot] = place;
        self.most = self.most.max(self.slots.iter().filter(|place| !matches!(place, Place::Free)).count());
    }

    fn least_free(&self) -> usize {
        self.slots.iter().position(|place| matches!(place, Place::Free)).unwrap_or(self.slots.len())
    }

    /// How many slots are free.
    fn free(&self) -> usize {
        self.limit - self.slots.iter().filter(|place| !matches!(place, Place::Free)).count()
    }
}

/// A job that is out: what is left of it to be carried out, and the same job of the session.
struct Aside {
    number: u32,
    start: usize,
    slots: Vec<usize>,
    requests: VecDeque<Request>,
    state: State,
    of_session: Job<State>,
}

impl Aside {
    /// The requests have to be those of the job that the model wants.
    fn new(number: u32, requests: Vec<Request>, want: &model::Job, game: &Slots, of_session: Job<State>) -> Aside {
        let start = match requests[0] {
            Request::JobLoad(start) => start,
            ref other => panic!("a job begins with {other:?}"),
        };
        assert_eq!(game.state(start).rows, want.start);
        assert_eq!(requests.len(), 1 + 2 * want.rows.len());
        let mut slots = Vec::new();
        for (pair, row) in requests[1..].chunks(2).zip(&want.rows) {
            match pair {
                [Request::JobStep(step), Request::JobSave(slot)] => {
                    assert_eq!(step.cells().collect::<Vec<_>>(), *row);
                    slots.push(*slot);
                }
                _ => panic!("a job goes on with {pair:?}"),
            }
        }
        assert_eq!(*of_session.start(), State::of(&want.start));
        assert!(of_session.rows().iter().zip(&want.rows).all(|(row, want)| row.cells().eq(want.iter().copied())));
        assert_eq!(of_session.rows().len(), want.rows.len());
        Aside { number, start, slots, requests: requests.into(), state: State::default(), of_session }
    }

    /// Carries out the next request, if one is left.
    fn go_on(&mut self, game: &mut Slots) {
        match self.requests.pop_front() {
            Some(Request::JobLoad(slot)) => self.state.clone_from(game.state(slot)),
            Some(Request::JobStep(row)) => self.state.step(&row),
            Some(Request::JobSave(slot)) => match &mut game.slots[slot] {
                Place::OfJob(there @ None) => *there = Some(self.state.clone()),
                other => panic!("a job saves into slot {slot}: {other:?}"),
            },
            Some(other) => panic!("a job asks for {other:?}"),
            None => {}
        }
    }
}

fn random_rules(random: &mut Random, players: u8) -> Rules {
    let mut local: Vec<u8> = (1..=players).filter(|_| random.one_in(3)).collect();
    if local.is_empty() {
        local.push(random.below(players.into()) as u8 + 1);
    }
    let delay = |player: u8, random: &mut Random| if local.contains(&player) { random.below(4) } else { 0 };
    Rules {
        players,
        delays: (1..=players).map(|player| delay(player, random)).collect(),
        local,
        masks: (1..=players).map(|_| if random.one_in(3) { random.next() as u32 } else { u32::MAX }).collect(),
        threshold: 1 + random.below(if players > 4 { 15 } else { 8 }),
        limit: if random.one_in(10) { 1 + random.below(12) } else { 1_048_576 },
        log: if random.one_in(10) { 1 + random.below(40) } else { 16_777_216 },
    }
}

fn settings_of(rules: &Rules) -> Settings {
    let settings = Settings::new(rules.players, &rules.local);
    let settings = settings.threshold(rules.threshold).limit(rules.limit).log(rules.log);
    (1..=rules.players).fold(settings, |settings, player| {
        let at = usize::from(player) - 1;
        settings.delay(player, rules.delays[at]).mask(player, rules.masks[at])
    })
}

/// What a script is like.
#[derive(Clone, Copy)]
struct Kind {
    calls: usize,
    /// Of a hundred calls, so many are about guesses.
    guesses: u32,
    has_limit: bool,
}

/// How often what was answered.
type Answers = BTreeMap<(&'static str, Option<u16>), u32>;

struct Script {
    random: Random,
    rules: Rules,
    kind: Kind,
    model: Model,
    handle: Handle,
    game: Slots,
    session: Session<State>,
    jobs: Vec<Aside>,
    has_rolled: bool,
    answers: Answers,
    seed: u64,
    /// Few of its jobs are carried out.
    hoards: bool,
}

impl Script {
    fn new(seed: u64, players: u8, kind: Kind) -> Script {
        let mut random = Random(seed);
        let rules = random_rules(&mut random, players);
        let settings = settings_of(&rules);
        let mut handle = Handle::open(&settings).expect("the settings are in range");
        let mut session = Session::open(&settings, State::default()).expect("the settings are in range");
        let mut limit = 257 + 64 * 8;
        if kind.has_limit {
            // Without guesses these are enough.
            limit = rules.threshold + 2;
            if kind.guesses > 0 {
                limit = limit - 1 + random.below(8);
            }
            handle.limit_slots(limit);
            session.limit_slots(limit);
        }
        Script {
            model: Model::new(&rules),
            handle,
            game: Slots::new(limit as usize),
            session,
            jobs: Vec::new(),
            has_rolled: false,
            answers: Answers::new(),
            seed: random.next(),
            hoards: random.one_in(10),
            random,
            rules,
            kind,
        }
    }

    fn play(&mut self) {
        for _ in 0..self.kind.calls {
            if self.random.below(100) < self.kind.guesses {
                self.call_of_guesses();
            } else {
                self.call();
            }
            self.compare();
        }
    }

    fn call(&mut self) {
        match self.random.below(100) {
            0..=14 => {
                let (player, word) = (self.random.player(self.rules.players), self.random.word());
                self.local(player, word);
            }
            15..=39 => self.frame(),
            40..=44 => self.advance(),
            45..=79 => self.remote(),
            80..=93 => self.synchronize(),
            94 => self.disconnect(),
            95 => self.burst(),
            96 => self.reserve(),
            _ => self.leave_some(),
        }
    }

    fn call_of_guesses(&mut self) {
        let call = if self.hoards { self.random.below(100) / 2 } else { self.random.below(100) };
        match call {
            0..=44 => self.guess(),
            45..=89 => self.go_on(),
            90..=94 => self.forget(),
            95..=97 => self.name_no_job(),
            _ => {
                while !self.jobs.is_empty() {
                    self.graft(0);
                }
            }
        }
    }

    fn note<T>(&mut self, call: &'static str, answer: &Result<T, Error>) {
        let why = answer.as_ref().err().map(|why| why.code() as u16);
        *self.answers.entry((call, why)).or_default() += 1;
    }

    /// What a player will give for a frame, if nothing is drawn in its place.
    fn word_to_come(&self, player: u8, frame: u32) -> u32 {
        Random(self.seed ^ u64::from(player) << 32 ^ u64::from(frame)).word()
    }

    /// Makes a guess. What is left of the requests of a roll is carried out, those of its job are not.
    fn guess(&mut self) {
        let mut player = self.random.player(self.rules.players);
        if !self.random.one_in(8) {
            player = 1 + player % self.rules.players;
            if self.rules.local.contains(&player) {
                player = 1 + player % self.rules.players;
            }
        }
        let count = match self.random.below(40) {
            0 => 0,
            1 => self.random.below(27),
            _ => 1 + self.random.below(3),
        };
        let next = self.model.confirmed(player).unwrap_or(0);
        let knows = self.random.one_in(2);
        let words: Vec<u32> = (0..count)
            .map(|ahead| if knows { self.word_to_come(player, next + ahead) } else { self.random.word() })
            .collect();
        let until = match self.random.below(10) {
            0 => self.random.below(40),
            1..=3 => self.model.settled() + self.random.below(27),
            _ => self.model.frame() + self.random.below(4),
        };

        let answer = self.handle.guess(player, &words, until);
        let free = self.game.free();
        self.take_requests();
        self.note("guess", &answer);
        let requests = mem::take(&mut self.game.of_job);
        let of_session = self.session.guess(player, &words, until);
        let want = self.model.guess(player, &words, until);
        match want {
            Ok(Some(want)) if want.rows.len() > free => {
                assert!(requests.is_empty(), "a refused guess asks for nothing");
                assert_eq!(answer, Err(Error::NoMemory));
                assert_eq!(of_session.err(), Some(Error::NoMemory));
            }
            Ok(Some(want)) => {
                let number = answer.expect("the guess is accepted").expect("it gives a job");
                self.model.add_job(number, want.clone());
                let of_session = of_session.expect("it is accepted").expect("it gives a job");
                let job = Aside::new(number, requests, &want, &self.game, of_session);
                self.game.starts.push(job.start);
                self.jobs.push(job);
            }
            nothing => {
                assert!(requests.is_empty());
                let nothing = nothing.map(|_| None);
                assert_eq!(answer, nothing);
                assert_eq!(of_session.map(|job| job.map(|job| job.number())), nothing);
            }
        }
    }

    fn some_job(&mut self) -> Option<usize> {
        let jobs = self.jobs.len() as u32;
        (jobs > 0).then(|| self.random.below(jobs) as usize)
    }

    /// Carries out some of a job, and grafts it if it was all.
    fn go_on(&mut self) {
        if let Some(at) = self.some_job() {
            for _ in 0..self.random.below(20) {
                self.jobs[at].go_on(&mut self.game);
            }
            if self.jobs[at].requests.is_empty() {
                self.graft(at);
            }
        }
    }

    /// Carries out what is left of a job, and grafts it.
    fn graft(&mut self, at: usize) {
        let mut job = self.take_job(at);
        while !job.requests.is_empty() {
            job.go_on(&mut self.game);
        }
        for slot in job.slots {
            match mem::replace(&mut self.game.slots[slot], Place::Free) {
                Place::OfJob(Some(state)) => self.game.slots[slot] = Place::Taken(state),
                _ => panic!("a state of a job was not kept"),
            }
        }
        let run = move || job.of_session.run(&mut State::default());
        let done = if self.random.one_in(100) { thread::spawn(run).join().expect("the job was run") } else { run() };
        let want = self.model.graft(job.number);
        assert_eq!(self.handle.graft(job.number), want);
        assert_eq!(self.session.graft(done), want);
        self.note("graft", &want);
    }

    fn forget(&mut self) {
        let job = match self.some_job() {
            Some(at) => self.take_job(at),
            None => return,
        };
        for slot in job.slots {
            self.game.slots[slot] = Place::GivenUp;
        }
        assert_eq!(self.handle.forget(job.number), Ok(()));
        assert_eq!(self.model.forget(job.number), Ok(()));
        drop(job.of_session);
    }

    fn take_job(&mut self, at: usize) -> Aside {
        let job = self.jobs.swap_remove(at);
        self.game.starts.swap_remove(at);
        job
    }

    fn name_no_job(&mut self) {
        let number = self.random.below(70);
        if self.jobs.iter().all(|job| job.number != number) {
            assert_eq!(self.model.graft(number), Err(Error::NoJob));
            assert_eq!(self.handle.graft(number), Err(Error::NoJob));
            assert_eq!(self.handle.forget(number), Err(Error::NoJob));
        }
    }

    fn local(&mut self, player: u8, word: u32) {
        let want = self.model.add_local_input(player, word);
        assert_eq!(self.handle.add_local_input(player, word), want);
        assert_eq!(self.session.add_local_input(player, word), want);
    }

    /// All local words, and an advance.
    fn frame(&mut self) {
        for player in self.rules.local.clone() {
            let word = self.random.word();
            self.local(player, word);
        }
        self.advance();
    }

    /// The next word of a player, one that was given, another one for its frame, or one too early.
    fn remote(&mut self) {
        let player = self.random.player(self.rules.players);
        let next = self.model.confirmed(player).unwrap_or(0);
        let mut word = self.random.word();
        let frame = match self.random.below(10) {
            0 => next + 1 + self.random.below(3),
            1 | 2 if next > 0 => {
                let frame = self.random.below(next);
                if self.random.one_in(2) {
                    word = self.model.confirmed_word(player, frame).unwrap_or(word);
                }
                frame
            }
            3 => next,
            _ => {
                word = self.word_to_come(player, next);
                next
            }
        };
        self.heard(player, frame, word);
    }

    fn heard(&mut self, player: u8, frame: u32, word: u32) {
        let want = self.model.remote_input(player, frame, word);
        assert_eq!(self.handle.remote_input(player, frame, word), want);
        assert_eq!(self.session.remote_input(player, frame, word), want);
    }

    /// More words than a player may have.
    fn burst(&mut self) {
        let player = self.random.player(self.rules.players);
        for _ in 0..140 {
            let (next, word) = (self.model.confirmed(player).unwrap_or(0), self.random.word());
            self.heard(player, next, word);
        }
    }

    fn disconnect(&mut self) {
        let player = self.random.player(self.rules.players);
        let want = self.model.disconnect_player(player);
        assert_eq!(self.handle.disconnect_player(player), want);
        assert_eq!(self.session.disconnect_player(player), want);
    }

    fn reserve(&mut self) {
        let events = self.random.below(50);
        let want = self.model.reserve_log(events);
        assert_eq!(self.handle.reserve_log(events), want);
        assert_eq!(self.session.reserve_log(events), want);
    }

    fn advance(&mut self) {
        self.game.begin();
        let answer = self.handle.advance_frame();
        self.take_requests();
        if answer == Err(Error::NoMemory) {
            assert_eq!(self.session.advance_frame(), answer);
            return self.found_no_slot(1);
        }
        let want = self.model.advance_frame();
        assert_eq!(answer, want);
        assert_eq!(self.session.advance_frame(), want);
        self.rolled(want.is_ok());
    }

    fn synchronize(&mut self) {
        self.game.begin();
        let answer = self.handle.synchronize_input();
        self.take_requests();
        if answer == Err(Error::NoMemory) {
            assert_eq!(self.session.synchronize_input(), answer);
            return self.found_no_slot(0);
        }
        let want = self.model.synchronize_input();
        assert_eq!(answer.map(|row| row.cells().collect::<Vec<_>>()), want);
        assert_eq!(self.session.synchronize_input().map(|row| row.cells().collect::<Vec<_>>()), want);
        self.rolled(want.is_ok());
    }

    /// Takes some of the requests of a roll, and calls again: that is refused if any is left.
    fn leave_some(&mut self) {
        if self.kind.has_limit {
            return;
        }
        self.game.begin();
        let want = self.model.synchronize_input();
        assert_eq!(self.handle.synchronize_input().is_ok(), want.is_ok());
        assert_eq!(self.session.synchronize_input().is_ok(), want.is_ok());
        let some = self.random.below(4) as usize;
        let requests: Vec<Request> = self.handle.requests().take(some).collect();
        requests.into_iter().for_each(|request| self.game.carry_out(request));
        if want.is_ok() {
            match self.handle.synchronize_input() {
                Err(Error::Pending) => {
                    assert_eq!(self.game.requests, some);
                    let number = self.random.below(3);
                    assert_eq!(self.handle.graft(number), Err(Error::Pending));
                    if self.kind.guesses > 0 {
                        self.guess();
                    }
                    self.take_requests();
                    assert!(self.game.requests > some, "nothing was left");
                }
                again => {
                    let want = self.model.synchronize_input();
                    assert_eq!(again.map(|row| row.cells().collect::<Vec<_>>()), want);
                    assert_eq!(self.session.synchronize_input().is_ok(), want.is_ok());
                    if want.is_ok() {
                        self.game.begin();
                    }
                    self.take_requests();
                }
            }
        }
        self.rolled(want.is_ok());
    }

    fn take_requests(&mut self) {
        self.handle.requests().for_each(|request| self.game.carry_out(request));
    }

    /// Looks at what a roll left, and at the state if the roll wasn't refused.
    fn rolled(&mut self, is_done: bool) {
        assert!(is_done || self.game.requests == 0, "a refused roll asks for nothing");
        self.has_rolled |= is_done;
        if is_done {
            let rerun = self.model.frame() as usize - self.model.from;
            assert_eq!((self.game.steps, self.game.saves), (rerun, rerun));
            let want = State::of(&self.model.timeline(self.model.frame() as usize));
            assert_eq!(self.game.current, want);
            assert_eq!(*self.session.game(), want);
        }
    }

    /// A roll by so many frames is refused for want of slots, before it has done anything.
    fn found_no_slot(&mut self, by: u32) {
        assert!(self.kind.has_limit && self.kind.guesses > 0, "there are slots enough");
        assert_eq!(self.game.requests, 0, "a refused roll asks for nothing");
        // The states that are kept, those of jobs, and the one from which each starts, which may be kept too.
        let of_jobs: usize = self.jobs.iter().map(|job| 1 + job.slots.len()).sum();
        let held = self.model.kept() + of_jobs;
        assert!(held + self.model.rerun(by) > self.game.limit, "there were slots enough");
        self.note("roll", &Err::<(), _>(Error::NoMemory));
    }

    /// What can be asked of a session.
    fn compare(&mut self) {
        let (model, handle) = (&self.model, &self.handle);
        assert_eq!(handle.frame(), model.frame());
        assert_eq!(handle.settled(), model.settled());
        for player in 0..=self.rules.players + 1 {
            let frame = self.random.below(model.frame() + 4);
            assert_eq!(handle.confirmed(player), model.confirmed(player));
            assert_eq!(handle.confirmed_word(player, frame), model.confirmed_word(player, frame));
            assert_eq!(handle.input_frame(player), model.input_frame(player));
        }
        let frame = self.random.below(model.settled() + 2);
        assert_eq!(handle.settled_row(frame).map(|row| row.cells().collect()), model.settled_row(frame));
        assert_eq!(self.session.frame(), model.frame());
        assert_eq!(self.session.settled(), model.settled());
        if self.random.one_in(8) {
            let claim = handle.claim();
            assert_eq!(claim.as_ref().err(), (!self.has_rolled).then_some(&Error::NoPlan));
            assert_eq!(self.session.claim(), claim);
        }
    }
}

const PLAIN: Kind = Kind { calls: 60, guesses: 0, has_limit: false };
const GUESSING: Kind = Kind { calls: 80, guesses: 35, has_limit: false };

/// What came of scripts.
#[derive(Default)]
struct Played {
    answers: Answers,
    /// How many rolls started from a state of a job, each state counted once.
    helped: u32,
    most_slots: usize,
}

impl Played {
    fn times(&self, call: &'static str, why: Option<Error>) -> u32 {
        self.answers.get(&(call, why.map(|why| why.code() as u16))).copied().unwrap_or_default()
    }
}

fn play(scripts: u32, first_seed: u64, kind: Kind, players: impl Fn(u64) -> u8) -> Played {
    let mut played = Played::default();
    for seed in first_seed..first_seed + u64::from(scripts) {
        let mut script = Script::new(seed, players(seed), kind);
        script.play();
        for (answer, times) in script.answers {
            *played.answers.entry(answer).or_default() += times;
        }
        played.helped += script.model.helped;
        played.most_slots = played.most_slots.max(script.game.most);
    }
    let Played { answers, helped, most_slots } = &played;
    println!("{scripts} scripts: {helped} rolls started from a job's state, at most {most_slots} slots; {answers:?}");
    played
}

#[test]
fn two_players() {
    let played = play(3_000, 0, PLAIN, |_| 2);
    assert!(played.most_slots <= 257);
}

#[test]
fn three_players() {
    let played = play(3_000, 100_000, PLAIN, |_| 3);
    assert!(played.most_slots <= 257);
}

#[test]
fn four_to_eight_players() {
    play(1_000, 200_000, PLAIN, |seed| 4 + (seed % 5) as u8);
}

#[test]
fn two_players_guessed() {
    let played = play(6_000, 300_000, GUESSING, |_| 2);
    assert!(played.helped > 6_000);
}

#[test]
fn three_players_guessed() {
    let played = play(4_000, 400_000, GUESSING, |_| 3);
    assert!(played.helped > 3_000);
    for why in [Error::InvalidPlayer, Error::PlayerDisconnected, Error::InvalidRequest] {
        assert!(played.times("guess", Some(why)) > 0, "{why}");
    }
    for why in [Error::Late, Error::Dead, Error::LogFull] {
        assert!(played.times("graft", Some(why)) > 0, "{why}");
    }
}

#[test]
fn four_to_eight_players_guessed() {
    let played = play(2_000, 500_000, GUESSING, |seed| 4 + (seed % 5) as u8);
    assert!(played.helped > 900);
}

#[test]
fn many_guesses() {
    let played = play(200, 600_000, Kind { calls: 400, guesses: 90, ..GUESSING }, |seed| 2 + (seed % 4) as u8);
    assert!(played.times("guess", Some(Error::Full)) > 0);
    assert!(played.times("graft", Some(Error::TreeFull)) > 0);
}

#[test]
fn few_slots() {
    play(500, 700_000, Kind { has_limit: true, ..PLAIN }, |seed| 2 + (seed % 7) as u8);
    let played = play(500, 800_000, Kind { has_limit: true, ..GUESSING }, |seed| 2 + (seed % 7) as u8);
    assert!(played.times("guess", Some(Error::NoMemory)) > 0);
    assert!(played.times("roll", Some(Error::NoMemory)) > 0);
}

#[test]
fn settings_out_of_range() {
    let two = || Settings::new(2, &[1]);
    for (settings, why) in [
        (Settings::new(0, &[1]), Error::PlayerOutOfRange),
        (Settings::new(9, &[1]), Error::PlayerOutOfRange),
        (Settings::new(2, &[]), Error::InvalidRequest),
        (Settings::new(2, &[3]), Error::InvalidRequest),
        (two().delay(1, 9), Error::InvalidRequest),
        (two().delay(2, 1), Error::InvalidRequest),
        (two().threshold(0), Error::InvalidRequest),
        (two().threshold(9), Error::InvalidRequest),
        (two().limit(0), Error::InvalidRequest),
        (two().limit(1_048_577), Error::InvalidRequest),
        (two().log(0), Error::InvalidRequest),
        (two().log(16_777_217), Error::InvalidRequest),
    ] {
        assert_eq!(Handle::open(&settings).unwrap_err(), why, "{settings:?}");
    }
    assert!(Handle::open(&two().wide().threshold(15)).is_ok());
}

#[test]
fn another_thread_may_go_on() {
    let mut session = Session::open(&Settings::new(1, &[1]), State::default()).unwrap();
    session.add_local_input(1, 7).unwrap();
    let session = std::thread::spawn(move || {
        session.advance_frame().unwrap();
        session
    });
    assert_eq!(session.join().unwrap().game().number, 7);
}

#[test]
fn after_a_panic_no_roll_goes_on() {
    struct Panics;
    impl Game for Panics {
        type State = ();
        fn save(&self) {}
        fn load(&mut self, _: &()) {}
        fn advance(&mut self, _: &Row) {
            panic!("as the test wants");
        }
    }
    struct Calm;
    impl Game for Calm {
        type State = ();
        fn save(&self) {}
        fn load(&mut self, _: &()) {}
        fn advance(&mut self, _: &Row) {}
    }
    let mut session = Session::open(&Settings::new(1, &[1]), Panics).unwrap();
    let job = session.guess(1, &[8], 1).unwrap().unwrap();
    session.add_local_input(1, 7).unwrap();
    let mut advance = || std::panic::catch_unwind(std::panic::AssertUnwindSafe(|| session.advance_frame()));
    assert!(advance().is_err());
    assert_eq!(advance().ok(), Some(Err(Error::Pending)));
    assert_eq!(session.guess(1, &[9], 1).err(), Some(Error::Pending));
    assert_eq!(session.graft(job.run(&mut Calm)), Err(Error::Pending));
}

#[test]
fn jobs_may_be_sent() {
    fn is_send<T: Send>() {}
    is_send::<Job<State>>();
    is_send::<Done<State>>();
}

/// A session two frames ahead of player 2's words.
fn two_ahead() -> Session<State> {
    let mut session = Session::open(&Settings::new(2, &[1]), State::default()).unwrap();
    for _ in 0..2 {
        session.add_local_input(1, 1).unwrap();
        session.advance_frame().unwrap();
    }
    session
}

#[test]
fn dropped_jobs_are_given_up() {
    let mut session = two_ahead();
    for word in 1..200 {
        let job = session.guess(2, &[word], 2).unwrap().unwrap();
        assert_eq!(job.number(), 0);
        if word % 2 == 0 {
            drop(job.run(&mut State::default()));
        }
    }
    let jobs: Vec<_> = (0..64).map(|word| session.guess(2, &[1_000 + word], 2).unwrap().unwrap()).collect();
    assert_eq!(session.guess(2, &[1], 2).err(), Some(Error::Full));
    thread::spawn(move || drop(jobs)).join().unwrap();
    assert!(session.guess(2, &[1], 2).unwrap().unwrap().number() < 64);
    // All of their slots are free again.
    session.limit_slots(5);
    session.remote_input(2, 0, 7).unwrap();
    session.synchronize_input().unwrap();
}

#[test]
fn a_job_of_another_session_is_none() {
    let (mut one, mut other) = (two_ahead(), two_ahead());
    let job = one.guess(2, &[7], 2).unwrap().unwrap();
    let same = other.guess(2, &[8], 2).unwrap().unwrap();
    assert_eq!(job.number(), same.number());
    assert_eq!(other.graft(job.run(&mut State::default())), Err(Error::NoJob));
    assert_eq!(other.graft(same.run(&mut State::default())), Ok(2));
}

#[test]
fn a_job_outlives_its_session() {
    let mut session = two_ahead();
    let job = session.guess(2, &[7], 2).unwrap().unwrap();
    drop(session);
    let done = job.run(&mut State::default());
    assert_eq!(done.states().len(), 2);
}

#[test]
fn the_log_has_the_accepted_calls() {
    let mut session = two_ahead();
    let log = |session: &Session<State>| (0..session.log_length()).map(|at| session.log_entry(at)).collect::<Vec<_>>();
    let ahead = log(&session);
    assert_eq!(ahead.len(), 4);
    assert!(matches!(ahead[2], Some(Entry::Local { player: 1, .. })));
    assert_eq!(ahead[3], Some(Entry::Advance));
    assert_eq!(session.remote_input(2, 5, 7), Err(Error::Gap));
    session.remote_input(2, 0, 7).unwrap();
    session.synchronize_input().unwrap();
    session.disconnect_player(2).unwrap();
    let job = session.guess(2, &[7], 2);
    assert_eq!(job.err(), Some(Error::PlayerDisconnected));
    let later = [Entry::Remote { player: 2, frame: 0, word: 7 }, Entry::Sync, Entry::Disconnect { player: 2 }];
    assert_eq!(log(&session), [ahead, later.into_iter().map(Some).collect()].concat());
    assert_eq!(session.log_entry(7), None);
}

#[test]
fn who_is_ahead_waits() {
    let mut session = two_ahead();
    assert_eq!(session.frames_ahead(), 0);
    // Eight frames ahead of a machine that is eight behind: half of the difference.
    session.note_advantages(-8, 8);
    assert_eq!(session.frames_ahead(), 8);
    // The last 40 pairs count: on their mean this machine is 2 ahead, too few to wait for, and then none.
    for _ in 0..3 {
        session.note_advantages(0, 0);
    }
    assert_eq!(session.frames_ahead(), 0);
    for _ in 0..40 {
        session.note_advantages(-3, 3);
    }
    assert_eq!(session.frames_ahead(), 3);
    // An advantage counts as 120 at most, beside 39 of the pairs before: (39 * 6 + 240 + 40) / 80.
    session.note_advantages(-1_000_000, 1_000_000);
    assert_eq!(session.frames_ahead(), 6);
}
