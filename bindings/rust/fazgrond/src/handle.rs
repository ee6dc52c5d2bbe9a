use crate::error::{said, Error};
use crate::owned::{answered, Owned};
use crate::peer::Peer;
use crate::raw;
use crate::row::Row;
use crate::settings::Settings;
use std::mem::MaybeUninit;

/// Whether a remote word is new.
#[derive(Clone, Copy, PartialEq, Eq, Debug)]
pub enum Heard {
    /// It is new.
    Taken,
    /// It was taken before.
    Repeated,
}

/// Where an advance led.
#[derive(Clone, Copy, PartialEq, Eq, Debug, Default)]
#[repr(C)]
pub struct Reached {
    /// The new frame.
    pub frame: u32,
    /// The frame from which the game was run.
    pub from: u32,
    /// How many frames were run.
    pub rerun: u32,
}

/// An accepted call, as the log has it.
#[derive(Clone, Copy, PartialEq, Eq, Debug)]
pub enum Entry {
    /// A local player's word of the frame that the session was at.
    Local {
        /// The player.
        player: u8,
        /// The word.
        word: u32,
    },
    /// A remote player's word.
    Remote {
        /// The player.
        player: u8,
        /// The frame of the word.
        frame: u32,
        /// The word.
        word: u32,
    },
    /// A remote player left.
    Disconnect {
        /// The player.
        player: u8,
    },
    /// A roll to the current frame.
    Sync,
    /// A roll to the next frame.
    Advance,
    /// The branch of a job was taken in.
    Graft,
}

/// What the game is to do next. Its slots are places for states, counted from 0; there are at most 257, and those of jobs.
#[derive(Clone, Copy, PartialEq, Eq, Debug)]
pub enum Request {
    /// Make the state of this slot the current one. The slot keeps it.
    Load(usize),
    /// Put a copy of the current state into this slot, which is free.
    Save(usize),
    /// Advance the current state by a frame with this row.
    Step(Row),
    /// Nothing needs the state of this slot any more.
    Free(usize),
    /// Make the state of this slot the job's. The slot keeps it.
    JobLoad(usize),
    /// Put a copy of the job's state into this slot, which is free.
    JobSave(usize),
    /// Advance the job's state by a frame with this row.
    JobStep(Row),
}

/// How many requests are taken at once.
const ROOM: usize = 16;

/// An open session that leaves its requests to be carried out by the caller. [`Session`](crate::Session) carries them out.
///
/// Before the first request the game has its opening state as the current one and in slot 0. Whatever a roll
/// ([`synchronize_input`](Handle::synchronize_input), [`advance_frame`](Handle::advance_frame) or [`Peer::go_on`]) or a
/// [`guess`](Handle::guess) answers, take all [`requests`](Handle::requests) after it, and carry them out in their order:
/// those of a job in their own time, on any thread.
#[derive(Debug)]
pub struct Handle {
    owned: Owned,
}

// SAFETY, of each call of the library below: `raw` is of a session that `open` made and `drop` closes; other pointers are to
// what lives past the call; and there is one call at a time, since `Handle` isn't `Sync` and no call comes back to it.
impl Handle {
    /// Opens a session.
    pub fn open(settings: &Settings) -> Result<Handle, Error> {
        let handle = Handle { owned: Owned::closed() };
        said(unsafe { raw::fazgrond_open(handle.raw(), settings) })?;
        Ok(handle)
    }

    pub(crate) fn raw(&self) -> *mut raw::Session {
        self.owned.raw()
    }

    /// Gives a local player's word of this frame.
    pub fn add_local_input(&mut self, player: u8, word: u32) -> Result<(), Error> {
        said(unsafe { raw::fazgrond_add_local_input(self.raw(), player, word) })
    }

    /// Takes a remote player's next word.
    pub fn remote_input(&mut self, player: u8, frame: u32, word: u32) -> Result<Heard, Error> {
        let mut repeated = 0;
        said(unsafe { raw::fazgrond_remote_input(self.raw(), player, frame, word, &mut repeated) })?;
        Ok(if repeated == 1 { Heard::Repeated } else { Heard::Taken })
    }

    /// A remote player leaves.
    pub fn disconnect_player(&mut self, player: u8) -> Result<(), Error> {
        said(unsafe { raw::fazgrond_disconnect_player(self.raw(), player) })
    }

    /// The row of this frame, after a rollback if a prediction was wrong.
    pub fn synchronize_input(&mut self) -> Result<Row, Error> {
        let mut row = Row::default();
        said(unsafe { raw::fazgrond_synchronize_input(self.raw(), &mut row) })?;
        Ok(row)
    }

    /// Goes on to the next frame.
    pub fn advance_frame(&mut self) -> Result<Reached, Error> {
        let mut reached = Reached::default();
        said(unsafe { raw::fazgrond_advance_frame(self.raw(), &mut reached) })?;
        Ok(reached)
    }

    /// A guess: if this player gave these words next. It asks for a job, which is to run the frames that this would make up to
    /// the frame `until`, 8 at most, and answers its number. None if there is nothing to run: all of them are kept.
    ///
    /// The job's requests are one [`JobLoad`](Request::JobLoad), and a [`JobStep`](Request::JobStep) and a
    /// [`JobSave`](Request::JobSave) for each frame. No other request writes into the slots of a job that is out, nor frees
    /// them, nor the slot that it starts from. A guess that is refused leaves no requests.
    pub fn guess(&mut self, player: u8, words: &[u32], until: u32) -> Result<Option<u32>, Error> {
        let mut job = 0;
        let code = unsafe { raw::fazgrond_guess(self.raw(), player, words.as_ptr(), words.len(), until, &mut job) };
        numbered(code, &job)
    }

    /// A guess with all words that a peer holds back from this session: as [`guess`](Handle::guess), whose job it asks for. Refused
    /// with [`Error::InvalidRequest`] if none waits.
    pub fn guess_waiting(&mut self, peer: &Peer, until: u32) -> Result<Option<u32>, Error> {
        peer.guess(self, until)
    }

    /// Takes in the states of a job all of whose requests are carried out, and says how many of them are kept. Whatever the
    /// answer but [`Error::Pending`], the number is free again.
    pub fn graft(&mut self, job: u32) -> Result<u32, Error> {
        let mut added = 0;
        said(unsafe { raw::fazgrond_graft(self.raw(), job, &mut added) })?;
        Ok(added)
    }

    /// Gives a job up: none of its requests may be carried out any more, and its number is free again.
    pub fn forget(&mut self, job: u32) -> Result<(), Error> {
        said(unsafe { raw::fazgrond_forget(self.raw(), job) })
    }

    /// From now on nothing is saved in a slot from this one on: a call that would need one is refused with
    /// [`Error::NoMemory`], and has changed nothing.
    pub fn limit_slots(&mut self, slots: u32) {
        let answer = said(unsafe { raw::fazgrond_limit_slots(self.raw(), slots) });
        debug_assert!(answer.is_ok(), "an open session takes any limit");
    }

    /// The requests of the last roll, and of guesses, that weren't taken yet.
    pub fn requests(&mut self) -> Requests<'_> {
        Requests { handle: self }
    }

    /// Takes all requests, many at once, and has them carried out in their order. If that panics, those that were taken are lost.
    pub(crate) fn carry_out_all(&mut self, mut carry_out: impl FnMut(&raw::Request)) {
        let mut room = [(); ROOM].map(|()| MaybeUninit::<raw::Request>::uninit());
        loop {
            let count = unsafe { raw::fazgrond_take_requests(self.raw(), room.as_mut_ptr().cast(), ROOM) };
            if count == 0 {
                return; // only now is none left: those of a seam come in two parts
            }
            for taken in &room[..count] {
                // SAFETY: the library wrote so many.
                carry_out(unsafe { taken.assume_init_ref() });
            }
        }
    }

    /// Makes room for so many more events: none of them is then refused for want of memory, but of slots if they are limited.
    pub fn reserve_log(&mut self, events: u32) -> Result<(), Error> {
        said(unsafe { raw::fazgrond_reserve_log(self.raw(), events) })
    }

    /// The text of the last rollback's claim: a certificate that it couldn't start from a later state.
    pub fn claim(&self) -> Result<Vec<u8>, Error> {
        let mut text = Vec::new();
        let mut length = 0;
        loop {
            let code = unsafe { raw::fazgrond_claim(self.raw(), text.as_mut_ptr(), text.len(), &mut length) };
            if code != raw::TOO_SHORT {
                return said(code).map(|()| text);
            }
            text.resize(length, 0);
        }
    }

    /// How many entries the log has.
    pub fn log_length(&self) -> usize {
        answered(|out| unsafe { raw::fazgrond_log_length(self.raw(), out) }).unwrap_or_default()
    }

    /// The entry at a place of the log, counted from 0. A log of calls alone is a replay: a new session with the same settings,
    /// of which they are made in turn, accepts each of them and comes to the same.
    pub fn log_entry(&self, place: usize) -> Option<Entry> {
        let raw::Entry { kind, player, frame, word } =
            answered(|out| unsafe { raw::fazgrond_log_entry(self.raw(), place, out) })?;
        let player = player as u8;
        Some(match kind {
            1 => Entry::Local { player, word },
            2 => Entry::Remote { player, frame, word },
            3 => Entry::Disconnect { player },
            4 => Entry::Sync,
            5 => Entry::Advance,
            6 => Entry::Graft,
            kind => unreachable!("an entry of the kind {kind}"),
        })
    }

    /// Notes by how many frames this machine is behind the other one, and the other behind this one, as it told last. The last 40
    /// pairs count.
    pub fn note_advantages(&mut self, local: i32, remote: i32) {
        let _open = unsafe { raw::fazgrond_note_advantages(self.raw(), local, remote) };
    }

    /// How many frames this machine should wait, so that the other comes up to it: 0, or 3 to 9.
    pub fn frames_ahead(&self) -> u32 {
        answered(|out| unsafe { raw::fazgrond_frames_ahead(self.raw(), out) }).unwrap_or_default()
    }

    /// The current frame.
    pub fn frame(&self) -> u32 {
        answered(|out| unsafe { raw::fazgrond_frame(self.raw(), out) }).unwrap_or_default()
    }

    /// How many rows are settled: they never change.
    pub fn settled(&self) -> u32 {
        answered(|out| unsafe { raw::fazgrond_settled(self.raw(), out) }).unwrap_or_default()
    }

    /// The row of a frame, if it is settled.
    pub fn settled_row(&self, frame: u32) -> Option<Row> {
        answered(|out| unsafe { raw::fazgrond_settled_row(self.raw(), frame, out) })
    }

    /// How many words of a player are confirmed: the frame whose word must come next. None if there is no such player.
    pub fn confirmed(&self, player: u8) -> Option<u32> {
        answered(|out| unsafe { raw::fazgrond_confirmed(self.raw(), player, out) })
    }

    /// The confirmed word of a player at a frame, if there is one.
    pub fn confirmed_word(&self, player: u8, frame: u32) -> Option<u32> {
        answered(|out| unsafe { raw::fazgrond_confirmed_word(self.raw(), player, frame, out) })
    }

    /// Whether the state that is shown may be out of date: a call was accepted since the last roll, or there was none yet. Then a
    /// turn that plays no frame has something to synchronize.
    pub fn has_news(&self) -> bool {
        answered(|out| unsafe { raw::fazgrond_has_news(self.raw(), out) }).unwrap_or(0u32) != 0
    }

    /// The settled frame, and the slot in which the state after all settled rows lies once the requests are carried out. It stays
    /// there until the next roll or guess.
    pub fn settled_slot(&self) -> (u32, usize) {
        let (mut frame, mut slot) = (0, 0);
        let answer = said(unsafe { raw::fazgrond_settled_slot(self.raw(), &mut frame, &mut slot) });
        debug_assert!(answer.is_ok(), "an open session has a settled state");
        (frame, slot as usize)
    }

    /// The frame in which a local player's next word counts. None if there is no such local player.
    pub fn input_frame(&self, player: u8) -> Option<u32> {
        answered(|out| unsafe { raw::fazgrond_input_frame(self.raw(), player, out) })
    }
}

/// The number of a guess's job, if there is a job.
pub(crate) fn numbered(code: i32, job: &u32) -> Result<Option<u32>, Error> {
    match code {
        raw::NOTHING => Ok(None),
        code => said(code).map(|()| Some(*job)),
    }
}

/// Requests, each of which is taken when it comes up.
#[derive(Debug)]
pub struct Requests<'a> {
    handle: &'a mut Handle,
}

impl Iterator for Requests<'_> {
    type Item = Request;

    fn next(&mut self) -> Option<Request> {
        let mut request = raw::Request::default();
        let count = unsafe { raw::fazgrond_take_requests(self.handle.raw(), &mut request, 1) };
        (count == 1).then(|| match request.kind {
            raw::LOAD => Request::Load(request.slot as usize),
            raw::SAVE => Request::Save(request.slot as usize),
            raw::STEP => Request::Step(request.row),
            raw::FREE => Request::Free(request.slot as usize),
            raw::JOB_LOAD => Request::JobLoad(request.slot as usize),
            raw::JOB_SAVE => Request::JobSave(request.slot as usize),
            raw::JOB_STEP => Request::JobStep(request.row),
            kind => unreachable!("a request of the kind {kind}"),
        })
    }
}
