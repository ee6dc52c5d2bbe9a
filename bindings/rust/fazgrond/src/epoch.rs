use crate::peer::{owners_of, Match};
use crate::raw;
use crate::row::PLAYERS;
use crate::settings::{place_of, Settings};
use std::mem::size_of;

/// How an epoch of a match opens: a part of it whose machines, owners, delays and threshold stay the same. It is the same at all
/// machines. Machines keep their numbers over all epochs, and a machine is in an epoch if it owns a player there. All epochs of a
/// match have the same players, and inputs of as many words.
#[derive(Clone, PartialEq, Eq, Debug)]
pub struct Epoch {
    /// Which epoch it is: 0 is the first one, and any other has a number of 64 bits of its own.
    pub id: u64,
    /// How many frames of the match came before its first one.
    pub base: u64,
    /// Of how many words a player's input is.
    pub words: u32,
    /// How many frames its sessions may run ahead of the confirmed words.
    pub threshold: u32,
    /// How many machines there are. Where an epoch is opened, it isn't looked at, since the owners say it.
    pub machines: u32,
    /// The machine of each player of the match, player 1 first. None: nobody owns it now, and somebody who comes may get it.
    pub owners: Vec<Option<u8>>,
    /// By how many frames each player's words count later, player 1 first, 0 to 8.
    pub delays: Vec<u32>,
}

impl Epoch {
    /// The first epoch of a match whose sessions have these settings. These have a delay for the machine's own players alone, and 0
    /// for others: if other machines have delays, put those of their players into it.
    pub fn first(of: &Match, settings: &Settings) -> Epoch {
        Epoch::of(&raw::Epoch::made(of, settings))
    }

    /// Whether a machine is in it: it owns a player. Send to those that are in the epoch which is played, but for this one.
    pub fn has(&self, machine: u8) -> bool {
        self.owners.contains(&Some(machine))
    }

    /// As the library has it.
    pub(crate) fn of(raw: &raw::Epoch) -> Epoch {
        let players = raw.owners.iter().take_while(|owner| **owner != raw::NO_PLAYER).count();
        let owners = raw.owners[..players].iter().map(|owner| (*owner != raw::NOBODY).then_some(*owner as u8));
        Epoch {
            id: raw.id,
            base: raw.base,
            words: raw.words,
            threshold: raw.threshold,
            machines: raw.machines,
            owners: owners.collect(),
            delays: raw.delays[..players].to_vec(),
        }
    }

    /// For the library.
    ///
    /// # Panics
    ///
    /// If there are more than 8 owners or delays.
    pub(crate) fn raw(&self) -> raw::Epoch {
        let owners: Vec<u8> = self.owners.iter().map(|owner| owner.unwrap_or(raw::NOBODY as u8)).collect();
        let mut delays = [0; PLAYERS];
        delays[..self.delays.len()].copy_from_slice(&self.delays);
        raw::Epoch {
            size: size_of::<raw::Epoch>() as u32,
            words: self.words,
            threshold: self.threshold,
            machines: self.machines,
            id: self.id,
            base: self.base,
            owners: owners_of(&owners),
            delays,
        }
    }
}

/// What is to be otherwise in the next epoch of a match.
///
/// It is void, and refused by its name, if its threshold is over 15 or a delay over 8, if it gives a delay to a player of another
/// machine or the words of an input other delays than each other, or if somebody is to come by a [`ticket`] that isn't of the match's
/// [`comers`](Match::comers). Of each player the first mark of an epoch counts alone, even if it is void.
#[derive(Clone, Debug)]
#[repr(C)]
pub struct Mark {
    pub(crate) size: u32,
    pub(crate) threshold: u32,
    pub(crate) ticket: u64,
    pub(crate) comes: [u32; PLAYERS],
    pub(crate) delays: [u32; PLAYERS],
}

impl Default for Mark {
    fn default() -> Mark {
        Mark::new()
    }
}

impl Mark {
    /// One that changes nothing: the frames begin anew, and that is all.
    pub fn new() -> Mark {
        Mark::made()
    }

    /// How many frames sessions may run ahead of the confirmed words, 1 to 15. 0: as before.
    pub fn threshold(self, frames: u32) -> Mark {
        Mark { threshold: frames, ..self }
    }

    /// By how many frames the words of a player of the machine that puts the mark count later, 0 to 8.
    ///
    /// # Panics
    ///
    /// If the player isn't one of 1 to 8.
    pub fn delay(mut self, player: u8, frames: u32) -> Mark {
        self.delays[place_of(player)] = frames;
        self
    }

    /// Somebody comes by this [`ticket`], and is to own these players: of an input of several words its first one is named. Where a
    /// player isn't nobody's, the lowest one that is takes its place.
    ///
    /// # Panics
    ///
    /// If a player isn't one of 1 to 8.
    pub fn newcomer(self, ticket: u64, players: &[u8]) -> Mark {
        let mut comes = [0; PLAYERS];
        for player in players {
            comes[place_of(*player)] = 1;
        }
        Mark { ticket, comes, ..self }
    }
}

/// The ticket by which somebody comes to a match with these [`comers`](Match::comers), under a name of the program's choice.
pub fn ticket(comers: u64, name: u32) -> u64 {
    // SAFETY: it takes nothing but numbers.
    unsafe { raw::fazgrond_ticket(comers, name) }
}
