//! A line between two machines over the internet or a LAN, over `libfaz_line.so`: the calls of `include/faz_line.h`.
//!
//! docs/ONLINE.md says what a line is. It is there with the feature `online`, and links the library from where `libfazgrond.a` is.
use crate::online_raw as raw;
use std::ffi::{c_void, CStr, CString};
use std::mem::MaybeUninit;
use std::ptr::{null, NonNull};

/// Bytes of an open key.
pub const KEY: usize = raw::KEY;

const DATAGRAM: usize = 1200;

/// How far a line is.
#[derive(Clone, Copy, PartialEq, Eq, Debug)]
pub enum Stage {
    /// It looks for a first way.
    Looking,
    /// It is up.
    Up,
    /// Nothing has come for a second: it looks for another way.
    Silent,
    /// No first way was found; it is looked for again and again.
    Blocked,
}

/// By which way datagrams go.
#[derive(Clone, Copy, PartialEq, Eq, Debug)]
pub enum Way {
    /// By none.
    NoWay,
    /// By addresses of a LAN.
    Lan,
    /// Directly, over the internet.
    Direct,
    /// By a relay.
    Relayed,
}

/// How a line stands.
#[derive(Clone, Copy, PartialEq, Eq, Debug)]
pub struct State {
    /// How far it is.
    pub stage: Stage,
    /// By which way datagrams go.
    pub way: Way,
    /// The newest way: 1 is the first.
    pub generation: u32,
    /// For how many milliseconds nothing has come.
    pub silence: u32,
    /// Datagrams that went.
    pub sent: u64,
    /// Datagrams that came.
    pub received: u64,
    /// What came that the other machine didn't seal.
    pub forged: u64,
    /// What it sealed, but came before.
    pub again: u64,
    /// Packets that name another sender than the other machine.
    pub misnamed: u64,
    /// What wasn't fetched in time.
    pub dropped: u64,
}

/// A TURN server. Its address is a number with dots or colons.
#[derive(Clone, Debug)]
pub struct Relay {
    /// Where it is.
    pub address: CString,
    /// Its port.
    pub port: u16,
    /// The user's name there.
    pub user: CString,
    /// And the password.
    pub password: CString,
    /// It is asked by TCP.
    pub by_tcp: bool,
}

impl Relay {
    fn raw(&self) -> raw::Relay {
        raw::Relay {
            address: self.address.as_ptr(),
            port: self.port,
            user: self.user.as_ptr(),
            password: self.password.as_ptr(),
            by_tcp: self.by_tcp,
        }
    }
}

/// What a line is opened with, besides its keys.
#[derive(Clone, Debug, Default)]
pub struct LineSettings {
    /// This machine of the match.
    pub me: u32,
    /// The other one.
    pub other: u32,
    /// A STUN server, by address and port.
    pub stun: Option<(CString, u16)>,
    /// TURN servers, four at most.
    pub relays: Vec<Relay>,
    /// The other machine isn't to see this one's address.
    pub relay_only: bool,
    /// Packets of this library are taken whatever sender they name.
    pub any_sender: bool,
}

/// Keys for one line, which it takes away.
pub struct Keys(raw::Keys);

impl Keys {
    /// Draws keys. None: the system gives no random numbers.
    pub fn draw() -> Option<Keys> {
        let mut keys = MaybeUninit::uninit();
        // SAFETY: the call writes all of it if it answers true.
        unsafe { raw::faz_line_draw(keys.as_mut_ptr()).then(|| Keys(keys.assume_init())) }
    }

    /// The open key, for the other machine.
    pub fn open(&self) -> [u8; KEY] {
        self.0.open
    }
}

/// A line to the other machine of a pair.
#[derive(Debug)]
pub struct Line(NonNull<c_void>);

// SAFETY: a line is used by one thread at a time, whichever that is.
unsafe impl Send for Line {}

impl Line {
    /// Opens a line.
    ///
    /// # Errors
    ///
    /// Why the settings are no good, or that there is no memory, in words.
    pub fn open(settings: &LineSettings, keys: &mut Keys, their: &[u8; KEY]) -> Result<Line, String> {
        if settings.relays.len() > raw::RELAYS {
            return Err("there are too many relays".to_owned());
        }
        let empty = raw::Relay { address: null(), port: 0, user: null(), password: null(), by_tcp: false };
        let mut made = raw::Settings {
            me: settings.me,
            other: settings.other,
            keys: &mut keys.0,
            their: their.as_ptr(),
            stun: settings.stun.as_ref().map_or(null(), |stun| stun.0.as_ptr()),
            stun_port: settings.stun.as_ref().map_or(0, |stun| stun.1),
            relays: [empty; raw::RELAYS],
            relay_count: settings.relays.len() as u32,
            relay_only: settings.relay_only,
            any_sender: settings.any_sender,
        };
        for (to, relay) in made.relays.iter_mut().zip(&settings.relays) {
            *to = relay.raw();
        }
        let mut why = null();
        // SAFETY: all that the settings point at is there until the call is over, which copies it. Words that it answers stay.
        unsafe {
            NonNull::new(raw::faz_line_open(&made, &mut why))
                .map(Line)
                .ok_or_else(|| CStr::from_ptr(why).to_string_lossy().into_owned())
        }
    }

    /// Once a turn, with the time in milliseconds.
    pub fn turn(&mut self, now: u32) {
        unsafe { raw::faz_line_turn(self.0.as_ptr(), now) }
    }

    /// Relays for the ways that are looked for from now on. False: they are no good, and those before stay.
    pub fn relays(&mut self, relays: &[Relay]) -> bool {
        let all: Vec<_> = relays.iter().map(Relay::raw).collect();
        all.len() <= raw::RELAYS && unsafe { raw::faz_line_relays(self.0.as_ptr(), all.as_ptr(), all.len() as u32) }
    }

    /// The next signal to carry to the other machine.
    pub fn signal(&mut self) -> Option<Vec<u8>> {
        let (mut out, mut length) = (vec![0; raw::SIGNAL], 0);
        let has = unsafe { raw::faz_line_signal(self.0.as_ptr(), out.as_mut_ptr(), out.len(), &mut length) };
        out.truncate(length);
        has.then_some(out)
    }

    /// Takes a signal of the other machine's. False: it made no such signal.
    pub fn signalled(&mut self, bytes: &[u8]) -> bool {
        unsafe { raw::faz_line_signalled(self.0.as_ptr(), bytes.as_ptr(), bytes.len()) }
    }

    /// Sends a datagram of 1,200 bytes at most. False: it is lost.
    pub fn send(&mut self, bytes: &[u8]) -> bool {
        unsafe { raw::faz_line_send(self.0.as_ptr(), bytes.as_ptr(), bytes.len()) }
    }

    /// The next datagram that came.
    pub fn receive(&mut self) -> Option<Vec<u8>> {
        let (mut out, mut length) = (vec![0; DATAGRAM], 0);
        let has = unsafe { raw::faz_line_receive(self.0.as_ptr(), out.as_mut_ptr(), out.len(), &mut length) };
        out.truncate(length);
        has.then_some(out)
    }

    /// How the line stands.
    pub fn look(&self) -> State {
        let mut seen = MaybeUninit::uninit();
        // SAFETY: the call writes all of it.
        let seen = unsafe {
            raw::faz_line_look(self.0.as_ptr(), seen.as_mut_ptr());
            seen.assume_init()
        };
        State {
            stage: match seen.stage {
                raw::LOOKING => Stage::Looking,
                raw::UP => Stage::Up,
                raw::SILENT => Stage::Silent,
                _ => Stage::Blocked,
            },
            way: match seen.way {
                raw::LAN => Way::Lan,
                raw::DIRECT => Way::Direct,
                raw::RELAYED => Way::Relayed,
                _ => Way::NoWay,
            },
            generation: seen.generation,
            silence: seen.silence,
            sent: seen.sent,
            received: seen.received,
            forged: seen.forged,
            again: seen.again,
            misnamed: seen.misnamed,
            dropped: seen.dropped,
        }
    }

    /// The number that only the two machines know: that of the pair in a match's numbers.
    pub fn number(&self) -> u64 {
        unsafe { raw::faz_line_number(self.0.as_ptr()) }
    }
}

impl Drop for Line {
    fn drop(&mut self) {
        unsafe { raw::faz_line_close(self.0.as_ptr()) }
    }
}
