use crate::raw;
use crate::row::PLAYERS;

/// How a session is opened.
#[derive(Clone, Debug)]
#[repr(C)]
pub struct Settings {
    pub(crate) size: u32,
    pub(crate) profile: u32,
    pub(crate) players: u32,
    pub(crate) local: u32,
    pub(crate) threshold: u32,
    pub(crate) limit: u32,
    pub(crate) log: u32,
    pub(crate) delays: [u32; PLAYERS],
    pub(crate) masks: [u32; PLAYERS],
}

impl Settings {
    /// So many players, of whom these are on this machine. No word is delayed, and all else is at its most. The limits are
    /// those of GGPO, or the wide ones for more than four players.
    ///
    /// # Panics
    ///
    /// If a local player isn't one of 1 to 8.
    pub fn new(players: u8, local: &[u8]) -> Settings {
        let local = local.iter().fold(0, |bits, player| bits | 1 << place_of(*player));
        Settings { local, ..Settings::made(players.into()) }
    }

    /// The wide limits: 8 players, and a threshold of 15 frames.
    pub fn wide(self) -> Settings {
        Settings { profile: raw::WIDE, ..self }
    }

    /// How many frames the session may run ahead of the confirmed words.
    pub fn threshold(self, frames: u32) -> Settings {
        Settings { threshold: frames, ..self }
    }

    /// By how many frames a local player's words count later.
    ///
    /// # Panics
    ///
    /// If the player isn't one of 1 to 8.
    pub fn delay(mut self, player: u8, frames: u32) -> Settings {
        self.delays[place_of(player)] = frames;
        self
    }

    /// Which bits of a player's last word are predicted as held.
    ///
    /// # Panics
    ///
    /// If the player isn't one of 1 to 8.
    pub fn mask(mut self, player: u8, bits: u32) -> Settings {
        self.masks[place_of(player)] = bits;
        self
    }

    /// The last frame.
    pub fn limit(self, frame: u32) -> Settings {
        Settings { limit: frame, ..self }
    }

    /// The most accepted calls.
    pub fn log(self, calls: u32) -> Settings {
        Settings { log: calls, ..self }
    }
}

pub(crate) fn place_of(player: u8) -> usize {
    assert!((1..=PLAYERS).contains(&player.into()), "there is no player {player}");
    usize::from(player) - 1
}
