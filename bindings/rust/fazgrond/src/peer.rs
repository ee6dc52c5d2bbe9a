use crate::epoch::{Epoch, Mark};
use crate::error::{said, Error};
use crate::handle::{numbered, Handle, Reached};
use crate::owned::{answered, Owned};
use crate::raw;
use crate::row::PLAYERS;
use crate::session::{Game, Session};
use std::fmt;
use std::ops::Deref;

/// The most machines of a match.
pub const MACHINES: usize = 8;

/// The owner of a player whom there isn't.
pub(crate) const NO_PLAYER: u32 = 255;

/// How a match is opened at one machine. Machines are numbered from 0.
#[derive(Clone, Debug)]
#[repr(C)]
pub struct Match {
    pub(crate) size: u32,
    pub(crate) numbers: [u64; MACHINES],
    pub(crate) draw: u64,
    pub(crate) digest: u64,
    pub(crate) opening: u64,
    pub(crate) comers: u64,
    pub(crate) me: u32,
    pub(crate) machines: u32,
    pub(crate) owners: [u32; PLAYERS],
    pub(crate) silent_after: u32,
    pub(crate) notify_after: u32,
    pub(crate) stalled_after: u32,
    pub(crate) words: u32,
    pub(crate) held_turns: u32,
}

impl Match {
    /// A match of so many machines, of which this one is `me`. Each player has an owner, player 1 first. Whoever answers nothing is
    /// gone after 5,000 milliseconds, and told of after 750. The match has the number 0: set one.
    ///
    /// The draw is 64 bits of the system's source of random bits, drawn anew for each opening, and never 0: by it what was sent in
    /// an earlier opening of the same match isn't heard in this one.
    ///
    /// # Panics
    ///
    /// If there are more than 8 owners.
    pub fn new(machines: u8, me: u8, owners: &[u8], draw: u64) -> Match {
        Match { draw, owners: owners_of(owners), ..Match::made(machines.into(), me.into()) }
    }

    /// One number for all machines, 64 random bits: each of them could speak in the name of another.
    pub fn number(self, number: u64) -> Match {
        self.numbers([number; MACHINES])
    }

    /// With each machine a number that only these two know, 64 random bits. That of this machine isn't read.
    pub fn numbers(self, numbers: [u64; MACHINES]) -> Match {
        Match { numbers, ..self }
    }

    /// A digest of all else that has to be alike at all machines, but for the opening state.
    pub fn digest(self, digest: u64) -> Match {
        Match { digest, ..self }
    }

    /// A digest of the opening state, which is compared before the match begins. 0: there is none.
    pub fn opening(self, digest: u64) -> Match {
        Match { opening: digest, ..self }
    }

    /// Who may come to a match that goes on: see [`ticket`](crate::ticket). 0: anybody whom a mark has come.
    pub fn comers(self, comers: u64) -> Match {
        Match { comers, ..self }
    }

    /// After how many milliseconds a machine is gone that answers nothing. 0: it never is.
    pub fn silent_after(self, milliseconds: u32) -> Match {
        Match { silent_after: milliseconds, ..self }
    }

    /// After how many milliseconds [`Event::Interrupted`] tells of a machine of which nothing comes, and [`Event::Stalled`] of one
    /// that holds this one up. 0: neither is told.
    pub fn notify_after(self, milliseconds: u32) -> Match {
        Match { notify_after: milliseconds, ..self }
    }

    /// After how many milliseconds a machine is gone that answers, and holds this one up as it gives or takes no words. 0: it never is.
    pub fn stalled_after(self, milliseconds: u32) -> Match {
        Match { stalled_after: milliseconds, ..self }
    }

    /// Of how many words a player's input is, 1 to 4: so many of the session's players in a row are one player of the match, with one
    /// owner. They leave together, and of no frame are some of their words taken and others not.
    pub fn words(self, words: u32) -> Match {
        Match { words, ..self }
    }

    /// For how many turns at most the others' words wait beside the session, 1 to 8, while another thread runs their frames. 0: the
    /// session is given them as they come.
    pub fn held_turns(self, turns: u32) -> Match {
        Match { held_turns: turns, ..self }
    }
}

/// The owners of all players whom there may be.
pub(crate) fn owners_of(owners: &[u8]) -> [u32; PLAYERS] {
    let mut all = [NO_PLAYER; PLAYERS];
    for (place, owner) in all[..owners.len()].iter_mut().zip(owners) {
        *place = u32::from(*owner);
    }
    all
}

/// The most bytes of a datagram.
const DATAGRAM: usize = 1200;

/// Bytes to be sent to another machine.
#[derive(Clone)]
pub struct Datagram {
    bytes: [u8; DATAGRAM],
    length: usize,
}

impl Datagram {
    /// What a call writes: its buffer, its room, and where its length goes. None if there is nothing to send.
    pub(crate) fn written(write: impl FnOnce(*mut u8, usize, &mut usize) -> i32) -> Result<Option<Datagram>, Error> {
        let mut made = Datagram { bytes: [0; DATAGRAM], length: 0 };
        match write(made.bytes.as_mut_ptr(), DATAGRAM, &mut made.length) {
            raw::NOTHING => Ok(None),
            code => said(code).map(|()| Some(made)),
        }
    }
}

impl Deref for Datagram {
    type Target = [u8];

    fn deref(&self) -> &[u8] {
        &self.bytes[..self.length]
    }
}

impl fmt::Debug for Datagram {
    fn fmt(&self, out: &mut fmt::Formatter<'_>) -> fmt::Result {
        self.deref().fmt(out)
    }
}

/// Which terms of a match another machine has otherwise.
#[derive(Clone, Copy, PartialEq, Eq, Debug)]
pub enum Field {
    /// The number of machines.
    Machines,
    /// The owners of the players.
    Owners,
    /// The digest, or who may come.
    Digest,
    /// The number of words of an input.
    Words,
    /// Whether it goes on in epochs.
    Lasting,
    /// The opening state.
    Opening,
}

/// Why a machine says bye. From [`OWN`](bye::OWN) to 255 they are the program's own; the library tells them, and does nothing else by
/// them.
pub mod bye {
    use crate::raw;

    /// It leaves.
    pub const LEAVES: u8 = raw::BYE_LEAVES as u8;
    /// It plays another state than the others.
    pub const DESYNC: u8 = raw::BYE_DESYNC as u8;
    /// It can't go on.
    pub const ERROR: u8 = raw::BYE_ERROR as u8;
    /// The first one of the program's own.
    pub const OWN: u8 = raw::BYE_OWN as u8;
}

/// Something that a peer tells its program.
#[derive(Clone, Copy, PartialEq, Eq, Debug)]
pub enum Event {
    /// A machine was heard, and the match isn't played with it yet.
    Synchronizing {
        /// The machine.
        machine: u8,
        /// How many steps are done.
        count: u32,
        /// Of how many.
        total: u32,
    },
    /// A machine and this one have heard each other.
    Synchronized {
        /// The machine.
        machine: u8,
    },
    /// The match begins.
    Running,
    /// A player has left.
    Disconnected {
        /// The player.
        player: u8,
    },
    /// This machine is ahead: give no word for so many turns.
    TimeSync {
        /// How many turns.
        frames_ahead: u32,
    },
    /// A machine is silent.
    Interrupted {
        /// The machine.
        machine: u8,
        /// In how many milliseconds it is gone; 0 if no machine ever is.
        disconnect_in: u32,
    },
    /// A machine that was silent was heard again.
    Resumed {
        /// The machine.
        machine: u8,
    },
    /// A machine is gone for good. So is one that a mark has let in, and that doesn't come.
    Left {
        /// The machine.
        machine: u8,
        /// Why, as its bye said ([`bye::LEAVES`] and the like); 0 if none was heard.
        bye: u8,
    },
    /// A machine has another state at a settled frame: the first such one, as far as both have noted digests.
    Desync {
        /// The machine.
        machine: u8,
        /// The frame.
        frame: u32,
    },
    /// A machine means another match.
    Mismatch {
        /// The machine.
        machine: u8,
        /// What it has otherwise.
        field: Field,
    },
    /// The match is over here: another machine regards this one as gone, or this one was cut off for too long.
    Dropped,
    /// A machine was opened anew. It can't come back into this match.
    Restarted {
        /// The machine.
        machine: u8,
    },
    /// A machine is heard, and holds this one up: it gives no words, or takes none, or stays in the epoch before.
    Stalled {
        /// The machine.
        machine: u8,
        /// In how many milliseconds it is gone for that; 0 if it never is.
        disconnect_in: u32,
    },
    /// What a machine sealed was refused, or a word of it was: its program is broken, or it lies.
    Refused {
        /// The machine.
        machine: u8,
    },
    /// A machine isn't there, though it had the time. It is waited for, until it is disconnected.
    Missing {
        /// The machine.
        machine: u8,
    },
    /// This machine hears too few of the others, of a match of three or more, and so regards none as gone.
    CutOff {
        /// In how many milliseconds the match is over here, which [`Event::Dropped`] tells.
        over_in: u32,
    },
    /// A machine isn't there, though it had the time, and datagrams come that aren't of this match. Told once.
    Strangers {
        /// How many hellos came that are sealed by another number, are of another version, or name a place of none of the others.
        count: u32,
    },
    /// A machine knows another mark of a player than this machine: the player's machine told it in two ways, or one of those that tell
    /// of it lies. Told once of each machine.
    TwoMarks {
        /// The machine.
        machine: u8,
        /// The player.
        player: u8,
    },
}

impl Event {
    fn of(told: raw::Event) -> Event {
        let machine = told.machine as u8;
        let disconnect_in = told.disconnect_in;
        match told.code {
            raw::SYNCHRONIZING => Event::Synchronizing { machine, count: told.count, total: told.total },
            raw::SYNCHRONIZED => Event::Synchronized { machine },
            raw::RUNNING => Event::Running,
            raw::DISCONNECTED => Event::Disconnected { player: told.player as u8 },
            raw::TIME_SYNC => Event::TimeSync { frames_ahead: told.frames_ahead },
            raw::INTERRUPTED => Event::Interrupted { machine, disconnect_in },
            raw::RESUMED => Event::Resumed { machine },
            raw::LEFT => Event::Left { machine, bye: told.bye as u8 },
            raw::DESYNC => Event::Desync { machine, frame: told.frame },
            raw::MISMATCH => Event::Mismatch { machine, field: field_of(told.field) },
            raw::DROPPED => Event::Dropped,
            raw::RESTARTED => Event::Restarted { machine },
            raw::STALLED => Event::Stalled { machine, disconnect_in },
            raw::REFUSED => Event::Refused { machine },
            raw::MISSING => Event::Missing { machine },
            raw::CUT_OFF => Event::CutOff { over_in: disconnect_in },
            raw::STRANGERS => Event::Strangers { count: told.count },
            raw::TWO_MARKS => Event::TwoMarks { machine, player: told.player as u8 },
            code => unreachable!("an event of the code {code}"),
        }
    }
}

fn field_of(field: u32) -> Field {
    match field {
        1 => Field::Machines,
        2 => Field::Owners,
        3 => Field::Digest,
        4 => Field::Words,
        5 => Field::Lasting,
        6 => Field::Opening,
        field => unreachable!("a field of the number {field}"),
    }
}

/// What was counted and measured of the datagrams between this machine and another.
#[derive(Clone, Copy, PartialEq, Eq, Debug)]
pub struct Stats {
    /// The round trip in milliseconds, if it was measured.
    pub round_trip: Option<u32>,
    /// How many were sent.
    pub sent: u32,
    /// How many came.
    pub received: u32,
    /// How many were lost, or late.
    pub lost: u32,
    /// How many words it hasn't said that it has, at most 140 of each player.
    pub words_queued: u32,
    /// By how many frames this machine is behind the other: negative if it is ahead.
    pub frames_behind: i32,
    /// And the other, as it says, behind this one.
    pub their_frames_behind: i32,
    /// How many that it sealed were refused, or had words that were.
    pub refused: u32,
    /// How many of it called this machine gone.
    pub dropped: u32,
    /// Whether it was opened anew in the middle of the match.
    pub restarted: bool,
}

/// A word of another machine's player.
#[derive(Clone, Copy, PartialEq, Eq, Debug)]
pub struct RemoteWord {
    /// The player.
    pub player: u8,
    /// The frame of the word.
    pub frame: u32,
    /// The word.
    pub word: u32,
}

/// The most words that wait. If one more comes, all are handed over.
pub const HELD_WORDS: usize = 64;

mod sealed {
    use crate::error::Error;
    use crate::handle::Handle;

    pub trait Sealed {
        fn raw(&self) -> *mut crate::raw::Session;

        /// Makes the call that goes on in the next epoch, and carries out what it asks for, if that isn't the caller's.
        fn go_on(&mut self, call: impl FnMut(&mut Handle) -> Result<Option<u32>, Error>) -> Result<Option<u32>, Error>;
    }
}

/// What a peer can stand beside: a [`Session`] or a [`Handle`].
pub trait Plays: sealed::Sealed {}

impl sealed::Sealed for Handle {
    fn raw(&self) -> *mut raw::Session {
        Handle::raw(self)
    }

    fn go_on(&mut self, mut call: impl FnMut(&mut Handle) -> Result<Option<u32>, Error>) -> Result<Option<u32>, Error> {
        call(self)
    }
}

impl Plays for Handle {}

impl<G: Game> sealed::Sealed for Session<G> {
    fn raw(&self) -> *mut raw::Session {
        self.handle().raw()
    }

    fn go_on(&mut self, call: impl FnMut(&mut Handle) -> Result<Option<u32>, Error>) -> Result<Option<u32>, Error> {
        Session::go_on(self, call)
    }
}

impl<G: Game> Plays for Session<G> {}

/// The network of a match at one machine: who has which words, who is gone, what to send. It has no socket and no clock, and stands
/// beside the session that plays.
///
/// `now` is this machine's clock in milliseconds, from a moment of its own choice; it may wrap, and it may jump. Give the peer always
/// the session that it was opened with, and tell that of the other machines by it alone: else each call that takes both answers
/// [`Error::OtherSession`], and nothing changes.
///
/// In each turn hear what came by [`receive`](Peer::receive), give the session its own players' words once
/// [`is_running`](Peer::is_running) says that the match has begun, make a [`turn`](Peer::turn), and [`send`](Peer::send) to each
/// other machine.
///
/// Here are two machines in one program; each hears what the other sent in the turn before.
///
/// ```
/// use fazgrond::{Datagram, Error, Match, Peer, Session, Settings};
/// # use fazgrond::{Game, Row};
/// # struct Sum(u32);
/// # impl Game for Sum {
/// #     type State = u32;
/// #     fn save(&self) -> u32 { self.0 }
/// #     fn load(&mut self, state: &u32) { self.0 = *state; }
/// #     fn advance(&mut self, row: &Row) { self.0 += row.cells().flatten().sum::<u32>(); }
/// # }
/// # fn random_bits() -> u64 { 4 }
/// # fn main() -> Result<(), Error> {
/// let mut machines = Vec::new();
/// for me in 0..2 {
///     let mut session = Session::open(&Settings::new(2, &[me + 1]), Sum(0))?;
///     let of = Match::new(2, me, &[0, 1], random_bits()).number(0x5eed);
///     let peer = Peer::open(&mut session, &of)?;
///     machines.push((session, peer, Vec::<Datagram>::new()));
/// }
/// for turn in 0..100 {
///     let now = 16 * turn; // your clock
///     for me in 0..2 {
///         let (session, peer, came) = &mut machines[usize::from(me)];
///         for bytes in came.drain(..) {
///             let _ = peer.receive(session, &bytes, now); // what is refused has changed nothing
///         }
///         if peer.is_running() {
///             let _ = session.add_local_input(me + 1, turn % 2); // refused if this machine is too far ahead
///         }
///         peer.turn(session, now)?;
///         while let Some(event) = peer.event() {
///             println!("machine {me}: {event:?}");
///         }
///         let sent = peer.send(session, 1 - me, now)?;
///         machines[usize::from(1 - me)].2.extend(sent);
///     }
/// }
/// assert!(machines.iter().all(|(session, ..)| session.settled() > 80));
/// # Ok(())
/// # }
/// ```
#[derive(Debug)]
pub struct Peer {
    owned: Owned,
}

// SAFETY, of each call of the library below: `raw` is of a peer that `open` made and `drop` closes, and a session's is of one that
// is open; other pointers are to what lives past the call; and there is one call at a time, since neither is `Sync`.
impl Peer {
    /// Opens a peer beside a session whose local players are those of this machine, and that has heard of no others yet.
    pub fn open(session: &mut impl Plays, of: &Match) -> Result<Peer, Error> {
        let peer = Peer { owned: Owned::closed() };
        said(unsafe { raw::fazgrond_peer_open(peer.raw(), session.raw(), of) })?;
        Ok(peer)
    }

    /// The same of a peer that carries, for a match of three machines or more: where the line between two of them breaks, a third one
    /// that both hear hands their datagrams on. In each turn send what [`send_more`](Peer::send_more) has too. A machine carries with
    /// those that were opened so too.
    pub fn open_carrying(session: &mut impl Plays, of: &Match) -> Result<Peer, Error> {
        let peer = Peer { owned: Owned::closed() };
        said(unsafe { raw::fazgrond_peer_open_carrying(peer.raw(), session.raw(), of) })?;
        Ok(peer)
    }

    /// The same of a peer that carries, and whose match goes on in epochs, beginning with this one. All machines of a match are opened
    /// so, or none. The epoch says the owners, the machines and the words of the match. The session's threshold, and the delays of its
    /// own players, are those of the epoch; else it is refused with [`Error::InvalidRequest`]. Who comes later opens with what the
    /// others' [`epoch`](Peer::epoch) says once its epoch has begun.
    ///
    /// In each turn, before the session is given its own players' words: hear what came, [`poll`](Peer::poll), and
    /// [`go on`](Peer::go_on). After [`send`](Peer::send) send each machine what [`send_before`](Peer::send_before) has for it too.
    ///
    /// # Panics
    ///
    /// If the epoch has more than 8 owners or delays.
    pub fn open_lasting(session: &mut impl Plays, of: &Match, epoch: &Epoch) -> Result<Peer, Error> {
        let peer = Peer { owned: Owned::closed() };
        said(unsafe { raw::fazgrond_peer_open_lasting(peer.raw(), session.raw(), of, &epoch.raw()) })?;
        Ok(peer)
    }

    pub(crate) fn raw(&self) -> *mut raw::Peer {
        self.owned.raw()
    }

    /// Takes a datagram that came, and gives the session the words in it. What is refused has changed nothing but what is counted
    /// and told of its sender.
    pub fn receive(&mut self, session: &mut impl Plays, bytes: &[u8], now: u32) -> Result<(), Error> {
        said(unsafe { raw::fazgrond_peer_receive(self.raw(), session.raw(), bytes.as_ptr(), bytes.len(), now) })
    }

    /// What a turn does before it plays: machines that were silent too long are gone, players of who is gone leave the session, and
    /// the match begins once all machines are there. If it is refused by the session, a player who is to leave is still there: all
    /// else is done, and the next poll tries again.
    pub fn poll(&mut self, session: &mut impl Plays, now: u32) -> Result<(), Error> {
        said(unsafe { raw::fazgrond_peer_poll(self.raw(), session.raw(), now) })
    }

    /// A turn of the main loop: a [`poll`](Peer::poll), and once the match has begun, the session goes on to its next frame if its
    /// local words are there, and says so; else it rolls back, if anything was accepted since it last did.
    pub fn turn<G: Game>(&mut self, session: &mut Session<G>, now: u32) -> Result<Option<Reached>, Error> {
        self.poll(session, now)?;
        if !self.is_running() {
            return Ok(None);
        }
        match session.advance_frame() {
            Err(Error::LocalInputMissing) => {
                if session.has_news() {
                    session.synchronize_input()?;
                }
                Ok(None)
            }
            answer => answer.map(Some),
        }
    }

    /// Whether the match has begun. Before that give the session no words.
    pub fn is_running(&self) -> bool {
        answered(|out| unsafe { raw::fazgrond_peer_is_running(self.raw(), out) }).unwrap_or(0u32) != 0
    }

    /// The datagram to send to a machine in this turn. None if it is gone, or this one, or there is no such machine; and of a peer that
    /// carries if what it has for that machine goes by [`send_more`](Peer::send_more).
    pub fn send(&mut self, session: &impl Plays, machine: u8, now: u32) -> Result<Option<Datagram>, Error> {
        Datagram::written(|out, room, length| unsafe {
            raw::fazgrond_peer_send(self.raw(), session.raw(), machine, now, out, room, length)
        })
    }

    /// Once [`send`](Peer::send) was called for each other machine, what a peer that carries has to send besides in this turn, and to
    /// which machine. Call it until there is none.
    pub fn send_more(&mut self) -> Option<(u8, Datagram)> {
        let mut machine = 0;
        let made = Datagram::written(|out, room, length| unsafe {
            raw::fazgrond_peer_send_more(self.raw(), &mut machine, out, room, length)
        });
        made.unwrap_or(None).map(|datagram| (machine, datagram))
    }

    /// The datagram that says to a machine that this one leaves the match, and why ([`bye::LEAVES`] and the like): another one for
    /// each machine. Send each a few times. None if there is nobody to tell. A peer that carries has [`send_more`](Peer::send_more)
    /// after it too.
    pub fn bye(&self, machine: u8, why: u8) -> Option<Datagram> {
        let made = Datagram::written(|out, room, length| unsafe {
            raw::fazgrond_peer_bye(self.raw(), machine, why, out, room, length)
        });
        made.unwrap_or(None)
    }

    /// Regards a machine as gone, for good. Its players leave the session at a later [`poll`](Peer::poll).
    pub fn disconnect(&mut self, machine: u8) -> Result<(), Error> {
        said(unsafe { raw::fazgrond_peer_disconnect(self.raw(), machine) })
    }

    /// Notes the game's own digest of the session's settled state, by which the machines see that they play alike.
    pub fn note_settled(&mut self, session: &impl Plays, digest: u64) -> Result<(), Error> {
        said(unsafe { raw::fazgrond_peer_note_settled(self.raw(), session.raw(), digest) })
    }

    /// What happened, the oldest first. The oldest is dropped if more than 64 wait.
    pub fn event(&mut self) -> Option<Event> {
        answered(|out| unsafe { raw::fazgrond_peer_event(self.raw(), out) }).map(Event::of)
    }

    /// What was counted and measured of a machine. None if there is no such machine.
    pub fn stats(&self, machine: u8) -> Option<Stats> {
        let seen: raw::Stats = answered(|out| unsafe { raw::fazgrond_peer_stats(self.raw(), machine, out) })?;
        Some(Stats {
            round_trip: (seen.is_measured != 0).then_some(seen.round_trip),
            sent: seen.sent,
            received: seen.received,
            lost: seen.lost,
            words_queued: seen.words_queued,
            frames_behind: seen.frames_behind,
            their_frames_behind: seen.their_frames_behind,
            refused: seen.refused,
            dropped: seen.dropped,
            restarted: seen.restarted != 0,
        })
    }

    /// The words that wait, in the order in which they came. None do if the match has no [`held_turns`](Match::held_turns).
    ///
    /// In each turn, before the session is given its own players' words: graft the jobs that are done,
    /// [`hand over`](Peer::hand_over) the words that would make no frame run again ([`rerun`](Peer::rerun)), and all of them if the
    /// session is [`pressed`](Peer::is_pressed); then call [`hand_over_due`](Peer::hand_over_due). After the
    /// [`turn`](Peer::turn), make a guess with those that still wait ([`Session::guess_waiting`]), and have its job run on another
    /// thread.
    pub fn waiting(&self) -> Vec<RemoteWord> {
        let mut entries = [(); HELD_WORDS].map(|()| raw::Entry::default());
        let count = unsafe { raw::fazgrond_peer_waiting(self.raw(), entries.as_mut_ptr(), entries.len()) };
        let words = entries[..count].iter();
        words.map(|it| RemoteWord { player: it.player as u8, frame: it.frame, word: it.word }).collect()
    }

    /// How many frames the session would have to run again, if the first so many words that wait were handed over, or all if there
    /// are fewer. Refused with [`Error::InvalidRequest`] if these are none.
    pub fn rerun(&self, session: &impl Plays, count: usize) -> Result<u32, Error> {
        let mut frames = 0;
        said(unsafe {
            raw::fazgrond_peer_rerun(self.raw(), session.raw(), count.min(HELD_WORDS) as u32, &mut frames)
        })?;
        Ok(frames)
    }

    /// A guess with all words that wait, of which a session or handle makes a job.
    pub(crate) fn guess(&self, session: &Handle, until: u32) -> Result<Option<u32>, Error> {
        let mut job = 0;
        numbered(unsafe { raw::fazgrond_peer_guess(self.raw(), session.raw(), until, &mut job) }, &job)
    }

    /// Hands the first so many words that wait over to the session, or all if there are fewer: it takes them as any words of others.
    /// If it is refused, nothing is changed.
    pub fn hand_over(&mut self, session: &mut impl Plays, count: usize) -> Result<(), Error> {
        said(unsafe { raw::fazgrond_peer_hand_over(self.raw(), session.raw(), count.min(HELD_WORDS) as u32) })
    }

    /// Once a turn: hands over the words that have waited for as many of these calls as the match has turns, and says how many they
    /// were. If it is refused, the turn doesn't count.
    pub fn hand_over_due(&mut self, session: &mut impl Plays) -> Result<usize, Error> {
        let mut handed = 0;
        said(unsafe { raw::fazgrond_peer_hand_over_due(self.raw(), session.raw(), &mut handed) })?;
        Ok(handed as usize)
    }

    /// Whether the session would stand without the words that wait: some do, and once it has come to its next frame, it would refuse
    /// a local word with [`Error::PredictionThreshold`], unless it is given more.
    pub fn is_pressed(&self, session: &impl Plays) -> bool {
        answered(|out| unsafe { raw::fazgrond_peer_is_pressed(self.raw(), session.raw(), out) }).unwrap_or(0u32) != 0
    }

    /// How the epoch opened that is played now. At what frame of the whole match the session is: the epoch's base and the session's
    /// frame, together. None if the match doesn't go on in epochs.
    pub fn epoch(&self) -> Option<Epoch> {
        answered(|out| unsafe { raw::fazgrond_peer_epoch(self.raw(), out) }).map(|raw| Epoch::of(&raw))
    }

    /// Whether a machine is in this epoch and was in the one before, and hasn't come in with this one. False of each in the epoch with
    /// which the peer was opened, and if the match doesn't go on in epochs.
    pub fn has_stayed(&self, machine: u8) -> bool {
        answered(|out| unsafe { raw::fazgrond_peer_has_stayed(self.raw(), machine, out) }).unwrap_or(0u32) != 0
    }

    /// Puts a mark on the next word that a player of this machine gives: the epoch ends after that frame. If another machine's mark ends
    /// it before, this one is forgotten. Refused with [`Error::Marked`] if the player has a mark in this epoch already, and with
    /// [`Error::InvalidPlayer`] if it isn't the first word of an input of this machine. A mark that would be void is refused by its name:
    /// with [`Error::GreatThreshold`], [`Error::LongDelay`], [`Error::OthersDelay`], [`Error::UnlikeDelays`] or [`Error::WrongTicket`].
    pub fn mark(&mut self, session: &impl Plays, player: u8, mark: &Mark) -> Result<(), Error> {
        said(unsafe { raw::fazgrond_peer_mark(self.raw(), session.raw(), player, mark) })
    }

    /// Goes on in the next epoch if this one is over, after [`poll`](Peer::poll) in each turn, and answers at what frame of it the session
    /// is. None if this epoch isn't over, or the match doesn't go on in epochs.
    ///
    /// The session has begun anew then, at the end of the epoch, and so has all that is counted by frames: settled rows, confirmed words,
    /// the log. The words that this machine's players gave past the end are given again, and the frames past it are run again. A
    /// [`Session`] gives its jobs up first: what is grafted of them is refused with [`Error::NoJob`]. A [`Handle`]'s requests and jobs are
    /// its caller's: it is refused with [`Error::JobsOut`] until they are grafted or forgotten.
    ///
    /// Refused as a session or a peer that is opened, and nothing is changed then: with [`Error::InvalidRequest`] if the others go on
    /// without this machine, since it has left for them.
    pub fn go_on(&mut self, session: &mut impl Plays) -> Result<Option<u32>, Error> {
        session.go_on(|handle| {
            let mut frames = 0;
            numbered(unsafe { raw::fazgrond_peer_go_on(self.raw(), handle.raw(), &mut frames) }, &frames)
        })
    }

    /// What is to be sent, after [`send`](Peer::send), to a machine in the epoch before. None if there is nothing.
    pub fn send_before(&mut self, machine: u8, now: u32) -> Option<Datagram> {
        let made = Datagram::written(|out, room, length| unsafe {
            raw::fazgrond_peer_send_before(self.raw(), machine, now, out, room, length)
        });
        made.unwrap_or(None)
    }
}
