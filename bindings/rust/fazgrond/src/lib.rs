//! Rollback sessions for games: the C library Fazgrond, as types that can't be misused.
//!
//! A [`Session`] runs a [`Game`] ahead on what the other players will probably press. If a word of theirs comes and is
//! another one, it goes back to a saved state and runs the frames since then again. It sends nothing and knows no time:
//! sockets, clock, buttons and picture are the game's.
//!
//! Here are two sessions in one program, each with a player of its own. Every word reaches the other session three frames
//! late. In a real game each session is on a machine of its own, and a packet takes the place of `on_the_way`.
//!
//! ```
//! use fazgrond::{Error, Game, Row, Session, Settings};
//! use std::collections::VecDeque;
//!
//! /// Two players on a line, who go to the left (bit 0) or to the right (bit 1).
//! struct Line([i32; 2]);
//!
//! impl Game for Line {
//!     type State = [i32; 2];
//!
//!     fn save(&self) -> [i32; 2] {
//!         self.0
//!     }
//!
//!     fn load(&mut self, state: &[i32; 2]) {
//!         self.0 = *state;
//!     }
//!
//!     fn advance(&mut self, row: &Row) {
//!         for (place, word) in self.0.iter_mut().zip(row.cells()) {
//!             let word = word.unwrap_or(0);
//!             *place += (word >> 1 & 1) as i32 - (word & 1) as i32;
//!         }
//!     }
//! }
//!
//! struct Side {
//!     me: u8,
//!     other: u8,
//!     session: Session<Line>,
//!     on_the_way: VecDeque<(u32, u32)>,
//! }
//!
//! impl Side {
//!     fn new(me: u8, other: u8) -> Result<Side, Error> {
//!         let session = Session::open(&Settings::new(2, &[me]), Line([10, 20]))?;
//!         Ok(Side { me, other, session, on_the_way: VecDeque::new() })
//!     }
//!
//!     /// A turn of the main loop: hears what has come, plays a frame, and answers what to send.
//!     fn turn(&mut self, buttons: u32) -> Result<Option<(u32, u32)>, Error> {
//!         if self.on_the_way.len() >= 3 {
//!             if let Some((frame, word)) = self.on_the_way.pop_front() {
//!                 self.session.remote_input(self.other, frame, word)?;
//!                 self.session.synchronize_input()?;
//!             }
//!         }
//!         let frame = self.session.input_frame(self.me);
//!         match self.session.add_local_input(self.me, buttons) {
//!             Ok(()) => {}
//!             Err(Error::PredictionThreshold) => return Ok(None), // too far ahead: wait
//!             Err(why) => return Err(why),
//!         }
//!         self.session.advance_frame()?;
//!         Ok(frame.map(|frame| (frame, buttons)))
//!     }
//! }
//!
//! # fn main() -> Result<(), Error> {
//! let (mut one, mut two) = (Side::new(1, 2)?, Side::new(2, 1)?);
//! for turn in 0..60 {
//!     let from_one = one.turn(turn / 7 % 4)?;
//!     let from_two = two.turn(turn / 5 % 4)?;
//!     two.on_the_way.extend(from_one);
//!     one.on_the_way.extend(from_two);
//!     // Draw one.session.game() and two.session.game() here.
//! }
//! // Once both have all words, both show the same.
//! for side in [&mut one, &mut two] {
//!     while let Some((frame, word)) = side.on_the_way.pop_front() {
//!         side.session.remote_input(side.other, frame, word)?;
//!     }
//!     side.session.synchronize_input()?;
//! }
//! assert_eq!(one.session.settled(), 60);
//! assert_eq!(one.session.game().0, two.session.game().0);
//! # Ok(())
//! # }
//! ```
//!
//! While it waits for a word, a session can [guess](Session::guess) it, and have the frames that it would make run on another
//! thread. If the word comes so, no frame is run again.
//!
//! A game that wants the requests themselves, to keep its states where it likes, opens a [`Handle`] in place of a session.
//!
//! A [`Peer`] is the network of a match, beside the session: it makes and takes datagrams, and tells the session of the others. A
//! match can go on with other machines, owners or delays, in [epochs](Epoch). A [`Viewer`] on another machine is sent a match's
//! settled rows, by a [`Line`]. Whether a game comes out the same each time that it is run, a [`sync_test`] says.

mod epoch;
mod error;
mod habits;
mod handle;
mod job;
mod line;
#[cfg(feature = "online")]
pub mod online;
#[cfg(feature = "online")]
mod online_raw;
mod owned;
mod peer;
mod raw;
mod row;
mod session;
mod settings;
mod state;
mod sync;

pub use epoch::{ticket, Epoch, Mark};
pub use error::Error;
pub use habits::{Foreseen, Habits, GUESS_WORDS};
pub use handle::{Entry, Handle, Heard, Reached, Request, Requests};
pub use job::{Done, Job};
pub use line::{Line, LineSettings, LineState, Viewer};
pub use peer::{bye, Datagram, Event, Field, Match, Peer, Plays, RemoteWord, Stats, HELD_WORDS, MACHINES};
pub use row::{Row, PLAYERS};
pub use session::{Game, Session};
pub use settings::Settings;
pub use state::{Giver, Piece, StateName, Taker};
pub use sync::sync_test;

/// The version of the library that the program runs with: `major << 16 | minor << 8 | patch`.
pub fn version() -> u32 {
    // SAFETY: it takes nothing.
    unsafe { raw::fazgrond_version() }
}
