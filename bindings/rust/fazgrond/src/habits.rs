use crate::error::{said, Error};
use crate::owned::Owned;
use crate::raw;

/// The most words of a guess.
pub const GUESS_WORDS: usize = 24;

/// The most guesses that are worth making at once.
const MOST: usize = 32;

/// Words that a player may give next.
#[derive(Clone, Debug, Default)]
#[repr(C)]
pub struct Foreseen {
    count: u32,
    /// The chance that they come, of 32768, times the frames from the last of them on.
    pub worth: u32,
    words: [u32; GUESS_WORDS],
}

impl Foreseen {
    /// The words for the next frames. The last of them is held on.
    pub fn words(&self) -> &[u32] {
        &self.words[..self.count as usize]
    }
}

/// What was seen of a player: it says which guesses of the player's next words are worth making.
#[derive(Debug)]
pub struct Habits {
    owned: Owned,
}

// SAFETY: as of a line.
impl Habits {
    /// Nothing was seen of the player yet.
    ///
    /// Each of the parts has those bits of a word that belong together: the four of a cross, one for each button, those
    /// of an axis. All other bits belong together as one part more; with no parts a word is one as a whole. The likely
    /// words are those that the player will probably give: the last 8 count.
    ///
    /// # Errors
    ///
    /// [`Error::InvalidRequest`] if there are more than 32 parts, one has no bit, or two have a bit in common;
    /// [`Error::NoMemory`].
    pub fn open(parts: &[u32], likely: &[u32]) -> Result<Habits, Error> {
        let habits = Habits { owned: Owned::closed() };
        said(unsafe {
            raw::fazgrond_habits_open(habits.raw(), parts.as_ptr(), parts.len(), likely.as_ptr(), likely.len())
        })?;
        Ok(habits)
    }

    fn raw(&self) -> *mut raw::Habits {
        self.owned.raw()
    }

    /// Notes the player's next confirmed word. Tell each once, in the order of their frames.
    pub fn note(&mut self, word: u32) {
        let code = unsafe { raw::fazgrond_habits_note(self.raw(), word) };
        debug_assert_eq!(code, 0);
    }

    /// The best guesses of the player's next words, best first, if so many frames have no word of it yet: of these the
    /// first 16 count. They are made of whole words or of their parts: of what foresaw more of the player's last
    /// changes.
    pub fn guesses(&self, frames: u32) -> Vec<Foreseen> {
        let mut best = vec![Foreseen::default(); MOST];
        let count = unsafe { raw::fazgrond_habits_guesses(self.raw(), frames, best.as_mut_ptr(), best.len()) };
        best.truncate(count);
        best
    }
}
