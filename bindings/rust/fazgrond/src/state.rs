use crate::error::{said, Error};
use crate::owned::{answered, Owned};
use crate::peer::{Datagram, MACHINES};
use crate::raw;

/// What a state is called that goes from one machine to another in pieces.
///
/// Who takes it has to know that from somebody it believes: what it has in the end are bytes with this digest, whoever sent them.
#[derive(Clone, Copy, PartialEq, Eq, Debug, Default)]
#[repr(C)]
pub struct StateName {
    /// Which state it is: a number of the program's choice for each that the machines exchange.
    pub which: u64,
    /// The frame that it is of, 0 before the match.
    pub frame: u32,
    /// How many bytes it has.
    pub length: u32,
    /// Their SHA-256.
    pub digest: [u8; 32],
}

impl StateName {
    /// A digest that has this state in it, beside what another has: by one call for each state, in the same order at all
    /// machines, that of the match has all of them.
    pub fn digest_with(&self, digest: u64) -> u64 {
        // SAFETY: the pointer is to this name.
        unsafe { raw::fazgrond_state_digest(self, digest) }
    }

    /// The datagram that asks for the first piece of the state of this number and frame, if nobody has said what it is called.
    /// The number is the one that this machine, `me`, shares with who is asked.
    pub fn ask(number: u64, me: u8, which: u64, frame: u32) -> Datagram {
        // SAFETY: the pointers are to what lives past the call.
        let made = Datagram::written(|out, room, length| unsafe {
            raw::fazgrond_state_ask(number, me, which, frame, out, room, length)
        });
        made.ok().flatten().expect("a datagram has room for an ask")
    }

    /// What the state is called that bytes are a piece of. Whether that is the right one is for the program to believe.
    ///
    /// # Errors
    ///
    /// [`Error::NotSealed`], [`Error::NoDatagram`] or [`Error::OtherKind`].
    pub fn told(number: u64, bytes: &[u8]) -> Result<StateName, Error> {
        let mut name = StateName::default();
        // SAFETY: as above.
        said(unsafe { raw::fazgrond_state_told(number, bytes.as_ptr(), bytes.len(), &mut name) })?;
        Ok(name)
    }

    /// Which machine bytes say that they are of, if they are a piece of a state or ask for some: by it one knows whose number to
    /// open them with. None if they are for a peer.
    pub fn sender(bytes: &[u8]) -> Option<u8> {
        // SAFETY: as above.
        answered(|out| unsafe { raw::fazgrond_state_sender(bytes.as_ptr(), bytes.len(), out) })
    }
}

/// What comes of a piece that a taker hears.
#[derive(Clone, Copy, PartialEq, Eq, Debug)]
pub enum Piece {
    /// It was there already.
    Again,
    /// It is there now, and others are missing.
    Taken,
    /// It was the last one, and the state has its digest.
    Whole,
    /// It was the last one, and the state has another digest, so that all pieces are missing again. If one machine gave them all,
    /// it is named, and no piece of it is taken any more. Else the pieces of who gave the last one are taken alone from now on.
    Wrong(Option<u8>),
}

impl Piece {
    fn of(heard: raw::Heard) -> Piece {
        match heard.what {
            1 => Piece::Again,
            2 => Piece::Taken,
            3 => Piece::Whole,
            4 => Piece::Wrong(u8::try_from(heard.machine).ok().filter(|machine| *machine != raw::NO_MACHINE)),
            what => unreachable!("a piece of which came {what}"),
        }
    }
}

/// Who gives a state in pieces to those who ask for them. It keeps nothing of who asked.
#[derive(Debug)]
pub struct Giver {
    owned: Owned,
}

// SAFETY: as of a line.
impl Giver {
    /// Who gives a copy of these bytes, the state of a number of the program's choice and of a frame.
    ///
    /// # Errors
    ///
    /// [`Error::InvalidRequest`] if there are none, [`Error::TooLong`] if there are 2^32 or more; [`Error::NoMemory`].
    pub fn open(which: u64, frame: u32, bytes: &[u8]) -> Result<Giver, Error> {
        let giver = Giver { owned: Owned::closed() };
        said(unsafe { raw::fazgrond_giver_open(giver.raw(), which, frame, bytes.as_ptr(), bytes.len()) })?;
        Ok(giver)
    }

    fn raw(&self) -> *mut raw::Giver {
        self.owned.raw()
    }

    /// What the state is called: tell it those who are to take it.
    pub fn name(&self) -> StateName {
        answered(|out| unsafe { raw::fazgrond_giver_name(self.raw(), out) }).unwrap_or_default()
    }

    /// Its bytes.
    pub fn bytes(&self) -> Vec<u8> {
        let mut bytes = vec![0; self.name().length as usize];
        let answer = said(unsafe { raw::fazgrond_giver_bytes(self.raw(), bytes.as_mut_ptr(), bytes.len()) });
        debug_assert!(answer.is_ok(), "an open giver has its bytes");
        bytes
    }

    /// The datagram that this machine, `me`, sends for the piece that bytes ask for at a place of their list, from 0. The number
    /// is the one that it shares with who asks. None if they ask for fewer pieces, or for one that the state hasn't.
    ///
    /// # Errors
    ///
    /// [`Error::NotSealed`], [`Error::NoDatagram`], [`Error::OtherKind`] or [`Error::OtherState`].
    pub fn reply(&self, number: u64, me: u8, bytes: &[u8], place: usize) -> Result<Option<Datagram>, Error> {
        Datagram::written(|out, room, length| unsafe {
            raw::fazgrond_giver_reply(self.raw(), number, me, bytes.as_ptr(), bytes.len(), place, out, room, length)
        })
    }
}

/// Who takes a state in pieces, of several machines if need be.
#[derive(Debug)]
pub struct Taker {
    owned: Owned,
}

// SAFETY: as of a line.
impl Taker {
    /// Who takes the state of this name, and has no piece of it. All memory is taken now.
    ///
    /// # Errors
    ///
    /// [`Error::InvalidRequest`] if it has no bytes, [`Error::TooLong`] if it has more than the limit; [`Error::NoMemory`].
    pub fn open(name: &StateName, limit: u32) -> Result<Taker, Error> {
        let taker = Taker { owned: Owned::closed() };
        said(unsafe { raw::fazgrond_taker_open(taker.raw(), name, limit) })?;
        Ok(taker)
    }

    fn raw(&self) -> *mut raw::Taker {
        self.owned.raw()
    }

    /// What the state is called.
    pub fn name(&self) -> StateName {
        answered(|out| unsafe { raw::fazgrond_taker_name(self.raw(), out) }).unwrap_or_default()
    }

    fn look(&self) -> raw::TakerState {
        answered(|out| unsafe { raw::fazgrond_taker_look(self.raw(), out) }).unwrap_or_default()
    }

    /// How many pieces the state has.
    pub fn pieces(&self) -> usize {
        self.look().pieces
    }

    /// How many of them are missing. 0 if it is whole.
    pub fn left(&self) -> usize {
        self.look().left
    }

    /// The datagram by which this machine, `me`, asks for the next missing pieces, so many at most and no more than 16. The
    /// number is the one that it shares with who is asked. None if none is missing.
    pub fn send(&mut self, number: u64, me: u8, most: usize) -> Option<Datagram> {
        let made = Datagram::written(|out, room, length| unsafe {
            raw::fazgrond_taker_send(self.raw(), number, me, most, out, room, length)
        });
        made.unwrap_or(None)
    }

    /// Takes a datagram that came. The number is the one that this machine shares with its sender.
    ///
    /// # Errors
    ///
    /// Why it isn't taken: nothing has changed then.
    pub fn receive(&mut self, number: u64, bytes: &[u8]) -> Result<Piece, Error> {
        let mut heard = raw::Heard::default();
        said(unsafe { raw::fazgrond_taker_receive(self.raw(), number, bytes.as_ptr(), bytes.len(), &mut heard) })?;
        Ok(Piece::of(heard))
    }

    /// Whether pieces of a machine are taken for now: ask those alone.
    pub fn takes_of(&self, machine: u8) -> bool {
        answered(|out| unsafe { raw::fazgrond_taker_takes_of(self.raw(), machine, out) }).unwrap_or(0u32) != 0
    }

    /// From now on pieces of this machine alone are taken, or of each that didn't give a wrong state. Call it if the one whose
    /// pieces are taken alone gives none.
    ///
    /// # Panics
    ///
    /// If there can't be such a machine.
    pub fn take_of(&mut self, machine: Option<u8>) {
        assert!(machine.map_or(true, |machine| usize::from(machine) < MACHINES), "there are {MACHINES} machines");
        let answer = said(unsafe { raw::fazgrond_taker_take_of(self.raw(), machine.unwrap_or(raw::NO_MACHINE)) });
        debug_assert!(answer.is_ok(), "there is such a machine");
    }

    /// The state's bytes, once it is whole: their digest is that of the name.
    pub fn bytes(&self) -> Option<Vec<u8>> {
        let mut bytes = vec![0; self.name().length as usize];
        match unsafe { raw::fazgrond_taker_bytes(self.raw(), bytes.as_mut_ptr(), bytes.len()) } {
            raw::NOTHING => None,
            code => said(code).ok().map(|()| bytes),
        }
    }
}
