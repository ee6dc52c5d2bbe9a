/// The most players of a session.
pub const PLAYERS: usize = 8;

/// The words of all players for a frame.
#[derive(Clone, Copy, PartialEq, Eq, Hash, Debug, Default)]
#[repr(C)]
pub struct Row {
    count: u32,
    gone: u32,
    words: [u32; PLAYERS],
}

impl Row {
    /// A row of these words, player 1's first. Nobody has left.
    ///
    /// # Panics
    ///
    /// If there are more than 8.
    pub fn new(words: &[u32]) -> Row {
        let mut row = Row { count: words.len() as u32, ..Row::default() };
        row.words[..words.len()].copy_from_slice(words);
        row
    }

    /// How many players there are.
    pub fn players(&self) -> u8 {
        self.count as u8
    }

    /// A player's word. None if the player has left, or there is no such player.
    #[inline]
    pub fn word(&self, player: u8) -> Option<u32> {
        self.cells().nth(usize::from(player).checked_sub(1)?)?
    }

    /// Each player's word, player 1's first; None in place of that of a player who has left.
    #[inline]
    pub fn cells(&self) -> impl Iterator<Item = Option<u32>> + '_ {
        let words = &self.words[..self.count as usize];
        words.iter().enumerate().map(|(at, word)| (self.gone >> at & 1 == 0).then_some(*word))
    }
}
