use crate::error::Error;
use crate::handle::{Entry, Handle, Heard, Reached, Request};
use crate::job::{Done, Job, Jobs};
use crate::peer::Peer;
use crate::raw;
use crate::row::Row;
use crate::settings::Settings;

/// A game whose states can be saved, loaded, and advanced by a frame. It must be deterministic: what a frame makes of a
/// state depends on nothing but the state and the row.
pub trait Game {
    /// A saved state.
    type State;

    /// A copy of the current state.
    fn save(&self) -> Self::State;

    /// Makes a saved state the current one.
    fn load(&mut self, state: &Self::State);

    /// Advances the current state by a frame.
    fn advance(&mut self, row: &Row);
}

/// An open session that plays a game: after each roll the game's current state is that of the current frame.
///
/// If a method of the game panics, the game is left between two frames, and each further roll, guess and graft is refused
/// with [`Error::Pending`].
#[derive(Debug)]
pub struct Session<G: Game> {
    handle: Handle,
    game: G,
    slots: Vec<Option<G::State>>,
    jobs: Jobs,
    is_whole: bool,
}

impl<G: Game> Session<G> {
    /// Opens a session. The game's current state is the opening.
    pub fn open(settings: &Settings, game: G) -> Result<Session<G>, Error> {
        let handle = Handle::open(settings)?;
        let slots = vec![Some(game.save())];
        Ok(Session { handle, game, slots, jobs: Jobs::default(), is_whole: true })
    }

    /// The game, to be shown.
    pub fn game(&self) -> &G {
        &self.game
    }

    pub(crate) fn handle(&self) -> &Handle {
        &self.handle
    }

    /// Gives a local player's word of this frame.
    pub fn add_local_input(&mut self, player: u8, word: u32) -> Result<(), Error> {
        self.handle.add_local_input(player, word)
    }

    /// Takes a remote player's next word.
    pub fn remote_input(&mut self, player: u8, frame: u32, word: u32) -> Result<Heard, Error> {
        self.handle.remote_input(player, frame, word)
    }

    /// A remote player leaves.
    pub fn disconnect_player(&mut self, player: u8) -> Result<(), Error> {
        self.handle.disconnect_player(player)
    }

    /// The row of this frame, after a rollback if a prediction was wrong.
    pub fn synchronize_input(&mut self) -> Result<Row, Error> {
        self.roll(Handle::synchronize_input)
    }

    /// Goes on to the next frame.
    pub fn advance_frame(&mut self) -> Result<Reached, Error> {
        self.roll(Handle::advance_frame)
    }

    /// A guess: if this player gave these 1 to 24 words next, and held the last of them. Answers the job of running the frames
    /// that this would make up to the frame `until`, 8 at most. None if there is nothing to run: all of them are kept.
    ///
    /// Run the job on a game beside the session's, at best on another thread, and hand it to [`graft`](Session::graft). If the
    /// guess is right, the next rollback starts behind the frames that it ran.
    ///
    /// ```
    /// # use fazgrond::{Error, Game, Row, Session, Settings};
    /// # use std::thread;
    /// /// A sum of all words.
    /// struct Sum(u32);
    ///
    /// impl Game for Sum {
    ///     type State = u32;
    ///
    ///     fn save(&self) -> u32 {
    ///         self.0
    ///     }
    ///
    ///     fn load(&mut self, state: &u32) {
    ///         self.0 = *state;
    ///     }
    ///
    ///     fn advance(&mut self, row: &Row) {
    ///         self.0 += row.cells().flatten().sum::<u32>();
    ///     }
    /// }
    ///
    /// # fn main() -> Result<(), Error> {
    /// let mut session = Session::open(&Settings::new(2, &[1]), Sum(0))?;
    /// for _ in 0..2 {
    ///     session.add_local_input(1, 1)?;
    ///     session.advance_frame()?; // with player 2's words predicted as 0
    /// }
    ///
    /// // What if player 2 has pressed 7 in both frames? A thread finds out, while the game may go on here.
    /// let job = session.guess(2, &[7], 2)?.expect("two frames are to be run");
    /// let done = thread::spawn(move || job.run(&mut Sum(0))).join().expect("a sum doesn't panic");
    /// assert_eq!(session.graft(done)?, 2);
    ///
    /// // Player 2 has, and no frame is run again.
    /// session.remote_input(2, 0, 7)?;
    /// session.remote_input(2, 1, 7)?;
    /// session.add_local_input(1, 1)?;
    /// let reached = session.advance_frame()?;
    /// assert_eq!((reached.from, reached.rerun), (2, 1));
    /// assert_eq!(session.game().0, 3 * (1 + 7));
    /// # Ok(())
    /// # }
    /// ```
    pub fn guess(&mut self, player: u8, words: &[u32], until: u32) -> Result<Option<Job<G::State>>, Error>
    where
        G::State: Clone,
    {
        self.job_of(|handle| handle.guess(player, words, until))
    }

    /// A guess with all words that a peer holds back from this session: as [`guess`](Session::guess), whose job it answers. It is
    /// right once they are handed over. Refused with [`Error::InvalidRequest`] if none waits.
    pub fn guess_waiting(&mut self, peer: &Peer, until: u32) -> Result<Option<Job<G::State>>, Error>
    where
        G::State: Clone,
    {
        self.job_of(|handle| handle.guess_waiting(peer, until))
    }

    /// The job of a guess, if there is anything to run.
    fn job_of(
        &mut self,
        guess: impl FnOnce(&mut Handle) -> Result<Option<u32>, Error>,
    ) -> Result<Option<Job<G::State>>, Error>
    where
        G::State: Clone,
    {
        self.forget_dropped()?;
        let answer = guess(&mut self.handle)?;
        let (mut start, mut rows, mut slots) = (0, Vec::new(), Vec::new());
        for request in self.handle.requests() {
            match request {
                Request::JobLoad(slot) => start = slot,
                Request::JobStep(row) => rows.push(row),
                Request::JobSave(slot) => {
                    *place(&mut self.slots, slot) = None;
                    slots.push(slot);
                }
                other => unreachable!("a guess asks for {other:?}"),
            }
        }
        let number = match answer {
            Some(number) => number,
            None => return Ok(None),
        };
        let ticket = self.jobs.add(number, slots);
        let start = self.slots[start].clone().expect("a slot that a job loads is taken");
        Ok(Some(Job { ticket, start, rows }))
    }

    /// Takes in the states of a job that was run, and says how many of them are kept. If it is refused, none is: with
    /// [`Error::Dead`], say, since a word has come that isn't the guessed one.
    pub fn graft(&mut self, done: Done<G::State>) -> Result<u32, Error> {
        if !self.is_whole {
            return Err(Error::Pending);
        }
        let slots = self.jobs.take(&done.ticket).ok_or(Error::NoJob)?;
        for (slot, state) in slots.into_iter().zip(done.states) {
            self.slots[slot] = Some(state);
        }
        self.handle.graft(done.ticket.number())
    }

    /// From now on at most so many states are saved, in the slots below this one: a call that would need one more is refused
    /// with [`Error::NoMemory`]. Without guesses, the prediction threshold and two are enough. With guesses more are needed: each
    /// job takes a slot for each of its rows until it is dropped, or its states were grafted and nothing needs them any more; and the
    /// state that it starts from is kept as long as it is out. A call that finds too few changes nothing, and can be made again
    /// once jobs were dropped.
    pub fn limit_slots(&mut self, slots: u32) {
        self.handle.limit_slots(slots);
    }

    /// Makes room for so many more events: none of them is then refused for want of memory, but of slots if they are limited.
    pub fn reserve_log(&mut self, events: u32) -> Result<(), Error> {
        self.handle.reserve_log(events)
    }

    /// The text of the last rollback's claim: a certificate that it couldn't start from a later state.
    pub fn claim(&self) -> Result<Vec<u8>, Error> {
        self.handle.claim()
    }

    /// How many entries the log has.
    pub fn log_length(&self) -> usize {
        self.handle.log_length()
    }

    /// The entry at a place of the log, counted from 0. A log of calls alone is a replay: a new session with the same settings,
    /// of which they are made in turn, accepts each of them and comes to the same.
    pub fn log_entry(&self, place: usize) -> Option<Entry> {
        self.handle.log_entry(place)
    }

    /// Notes by how many frames this machine is behind the other one, and the other behind this one, as it told last. The last 40
    /// pairs count.
    pub fn note_advantages(&mut self, local: i32, remote: i32) {
        self.handle.note_advantages(local, remote);
    }

    /// How many frames this machine should wait, so that the other comes up to it: 0, or 3 to 9.
    pub fn frames_ahead(&self) -> u32 {
        self.handle.frames_ahead()
    }

    /// The current frame.
    pub fn frame(&self) -> u32 {
        self.handle.frame()
    }

    /// Whether the state that is shown may be out of date: a call other than a graft was accepted since the last roll, or there was
    /// none yet. Then a turn that plays no frame has something to synchronize.
    pub fn has_news(&self) -> bool {
        self.handle.has_news()
    }

    /// The settled frame, and the state after all settled rows. None after a method of the game has panicked.
    pub fn settled_state(&self) -> Option<(u32, &G::State)> {
        let (frame, slot) = self.handle.settled_slot();
        let state = self.slots.get(slot).and_then(Option::as_ref);
        state.filter(|_| self.is_whole).map(|state| (frame, state))
    }

    /// How many rows are settled: they never change.
    pub fn settled(&self) -> u32 {
        self.handle.settled()
    }

    /// The row of a frame, if it is settled.
    pub fn settled_row(&self, frame: u32) -> Option<Row> {
        self.handle.settled_row(frame)
    }

    /// How many words of a player are confirmed: the frame whose word must come next. None if there is no such player.
    pub fn confirmed(&self, player: u8) -> Option<u32> {
        self.handle.confirmed(player)
    }

    /// The confirmed word of a player at a frame, if there is one.
    pub fn confirmed_word(&self, player: u8, frame: u32) -> Option<u32> {
        self.handle.confirmed_word(player, frame)
    }

    /// The frame in which a local player's next word counts. None if there is no such local player.
    pub fn input_frame(&self, player: u8) -> Option<u32> {
        self.handle.input_frame(player)
    }

    /// Goes on in the next epoch of a match, if a peer says so. The jobs of the one before are given up: no state of them is in a slot.
    pub(crate) fn go_on(
        &mut self,
        mut call: impl FnMut(&mut Handle) -> Result<Option<u32>, Error>,
    ) -> Result<Option<u32>, Error> {
        match self.roll(&mut call) {
            Err(Error::JobsOut) => {
                let jobs = std::mem::take(&mut self.jobs);
                jobs.numbers().try_for_each(|number| self.handle.forget(number))?;
                self.roll(call)
            }
            gone => gone,
        }
    }

    /// Makes a call that rolls, and carries out what it asks for.
    fn roll<T>(&mut self, call: impl FnOnce(&mut Handle) -> Result<T, Error>) -> Result<T, Error> {
        self.forget_dropped()?;
        self.is_whole = false;
        let answer = call(&mut self.handle);
        let Session { handle, game, slots, .. } = self;
        handle.carry_out_all(|request| {
            let slot = request.slot as usize;
            match request.kind {
                raw::LOAD => game.load(slots[slot].as_ref().expect("a slot that is loaded is taken")),
                raw::SAVE => *place(slots, slot) = Some(game.save()),
                raw::STEP => game.advance(&request.row),
                raw::FREE => slots[slot] = None,
                kind => unreachable!("a roll asks for the kind {kind}"),
            }
        });
        self.is_whole = true;
        answer
    }

    /// Gives the jobs up that were dropped, unless requests are pending.
    fn forget_dropped(&mut self) -> Result<(), Error> {
        if !self.is_whole {
            return Err(Error::Pending);
        }
        if self.jobs.is_empty() {
            return Ok(());
        }
        self.jobs.dropped().into_iter().try_for_each(|number| self.handle.forget(number))
    }
}

/// The place of a slot, which is added if it is the next one.
fn place<T>(slots: &mut Vec<Option<T>>, slot: usize) -> &mut Option<T> {
    if slot == slots.len() {
        slots.push(None);
    }
    &mut slots[slot]
}
