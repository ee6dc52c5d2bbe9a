use crate::error::{said, Error};
use crate::owned::{answered, Owned};
use crate::peer::{owners_of, Datagram, Peer, Plays};
use crate::raw;
use crate::row::{Row, PLAYERS};

/// How an end of a viewer's line is opened: the same at both ends, but for the draw and the time.
#[derive(Clone, Debug)]
#[repr(C)]
pub struct LineSettings {
    number: u64,
    draw: u64,
    digest: u64,
    opening: u64,
    host: u32,
    machines: u32,
    owners: [u32; PLAYERS],
    silent_after: u32,
}

impl LineSettings {
    /// A line to the machine `host` of a match of so many machines, whose players have these owners, player 1 first. The other end
    /// is silent once it has answered nothing for 5,000 milliseconds.
    ///
    /// The number is the line's own: 64 random bits that only its two ends know. The draw is drawn for this opening of this end, as
    /// in a [`Match`](crate::Match).
    ///
    /// # Panics
    ///
    /// If there are more than 8 owners.
    pub fn new(number: u64, draw: u64, host: u8, machines: u8, owners: &[u8]) -> LineSettings {
        LineSettings {
            number,
            draw,
            digest: 0,
            opening: 0,
            host: host.into(),
            machines: machines.into(),
            owners: owners_of(owners),
            silent_after: raw::SILENT_AFTER,
        }
    }

    /// The digest of the match.
    pub fn digest(self, digest: u64) -> LineSettings {
        LineSettings { digest, ..self }
    }

    /// The digest of the match's opening state.
    pub fn opening(self, digest: u64) -> LineSettings {
        LineSettings { opening: digest, ..self }
    }

    /// After how many milliseconds the other end is silent, which answers nothing. 0: it never is.
    pub fn silent_after(self, milliseconds: u32) -> LineSettings {
        LineSettings { silent_after: milliseconds, ..self }
    }
}

/// How far the two ends of a line are.
#[derive(Clone, Copy, PartialEq, Eq, Debug)]
pub struct LineState {
    /// The rows that the viewer has: at the host's end, that it said that it has.
    pub rows: u32,
    /// The most rows that the host said to be settled: at the host's end, that the viewer was told.
    pub settled: u32,
    /// Milliseconds since the other end answered last, if both have heard each other; else 0.
    pub silence: u32,
    /// Whether both have heard each other.
    pub is_playing: bool,
    /// Whether one of the two has said bye.
    pub has_ended: bool,
    /// Whether the other end has answered nothing for too long. Drop the line then.
    pub is_silent: bool,
}

impl LineState {
    fn of(seen: raw::LineState) -> LineState {
        LineState {
            rows: seen.rows,
            settled: seen.settled,
            silence: seen.silence,
            is_playing: seen.is_playing != 0,
            has_ended: seen.has_ended != 0,
            is_silent: seen.is_silent != 0,
        }
    }
}

/// The host's end of a viewer's line: it sends the settled rows of a session to a viewer on another machine.
#[derive(Debug)]
pub struct Line {
    owned: Owned,
}

// SAFETY, of each call of the library below: `raw` is of what `open` made and `drop` closes, and a session's or peer's is of one that is
// open; other pointers are to what lives past the call; and there is one call at a time, since none of them is `Sync`.
impl Line {
    /// Opens a line at its host.
    pub fn open(settings: &LineSettings) -> Result<Line, Error> {
        let line = Line { owned: Owned::closed() };
        said(unsafe { raw::fazgrond_line_open(line.raw(), settings) })?;
        Ok(line)
    }

    fn raw(&self) -> *mut raw::Line {
        self.owned.raw()
    }

    /// Takes a datagram that came of the viewer.
    pub fn receive(&mut self, bytes: &[u8], now: u32) -> Result<(), Error> {
        said(unsafe { raw::fazgrond_line_receive(self.raw(), bytes.as_ptr(), bytes.len(), now) })
    }

    /// The datagram to send to the viewer in this turn: settled rows from those on that the viewer has, as many as fit. Always give
    /// it the same session. None once the line has ended.
    pub fn send(&mut self, session: &impl Plays, now: u32) -> Option<Datagram> {
        let made = Datagram::written(|out, room, length| unsafe {
            raw::fazgrond_line_send(self.raw(), session.raw(), now, out, room, length)
        });
        made.unwrap_or(None)
    }

    /// The same of a line of the epoch before, in a match that goes on in epochs. Rows are counted from an epoch's first frame on, so
    /// a line is of one epoch: open another one for the next. None too if there is no epoch before, or nobody can be in it any more.
    pub fn send_before(&mut self, peer: &Peer, now: u32) -> Option<Datagram> {
        let made = Datagram::written(|out, room, length| unsafe {
            raw::fazgrond_line_send_before(self.raw(), peer.raw(), now, out, room, length)
        });
        made.unwrap_or(None)
    }

    /// Ends the line, by the datagram that says so. Send it a few times. None if nobody is to be told.
    pub fn bye(&mut self) -> Option<Datagram> {
        let made =
            Datagram::written(|out, room, length| unsafe { raw::fazgrond_line_bye(self.raw(), out, room, length) });
        made.unwrap_or(None)
    }

    /// How far the two ends are.
    pub fn look(&self, now: u32) -> LineState {
        LineState::of(answered(|out| unsafe { raw::fazgrond_line_look(self.raw(), now, out) }).unwrap_or_default())
    }
}

/// A viewer on another machine: it is sent the settled rows of a match, and steps its game by them.
#[derive(Debug)]
pub struct Viewer {
    owned: Owned,
}

// SAFETY: as of a line.
impl Viewer {
    /// Opens the viewer's end of a line.
    pub fn open(settings: &LineSettings) -> Result<Viewer, Error> {
        let viewer = Viewer { owned: Owned::closed() };
        said(unsafe { raw::fazgrond_viewer_open(viewer.raw(), settings) })?;
        Ok(viewer)
    }

    fn raw(&self) -> *mut raw::Viewer {
        self.owned.raw()
    }

    /// Takes a datagram that came of the host, and says how many rows were taken from it: 64 at most may wait to be played, and the
    /// others come again.
    pub fn receive(&mut self, bytes: &[u8], now: u32) -> Result<u32, Error> {
        let mut rows = 0;
        said(unsafe { raw::fazgrond_viewer_receive(self.raw(), bytes.as_ptr(), bytes.len(), now, &mut rows) })?;
        Ok(rows)
    }

    /// The datagram to send to the host in this turn. None once the line has ended.
    pub fn send(&mut self, now: u32) -> Option<Datagram> {
        let made = Datagram::written(|out, room, length| unsafe {
            raw::fazgrond_viewer_send(self.raw(), now, out, room, length)
        });
        made.unwrap_or(None)
    }

    /// Ends the line, by the datagram that says so. Send it a few times. None if nobody is to be told.
    pub fn bye(&mut self) -> Option<Datagram> {
        let made =
            Datagram::written(|out, room, length| unsafe { raw::fazgrond_viewer_bye(self.raw(), out, room, length) });
        made.unwrap_or(None)
    }

    /// The next row that is to be played, from frame 0 on, if it is there.
    pub fn row(&mut self) -> Option<Row> {
        answered(|out| unsafe { raw::fazgrond_viewer_row(self.raw(), out) })
    }

    /// How far the two ends are.
    pub fn look(&self, now: u32) -> LineState {
        LineState::of(answered(|out| unsafe { raw::fazgrond_viewer_look(self.raw(), now, out) }).unwrap_or_default())
    }
}
