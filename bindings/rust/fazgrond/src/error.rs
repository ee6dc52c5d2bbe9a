use crate::raw;
use std::fmt;

/// Why a call was refused.
#[derive(Clone, Copy, PartialEq, Eq, Hash, Debug)]
// bindings/numbers writes the list.
#[repr(i32)]
pub enum Error {
    /// There is no such player, or the player isn't of this kind (local, remote).
    InvalidPlayer = 2,
    /// The settings have no players, or too many.
    PlayerOutOfRange = 3,
    /// The session is as far ahead as it may be: wait for the others' words.
    PredictionThreshold = 4,
    /// The player has left.
    PlayerDisconnected = 9,
    /// The settings are out of range (a limit, a delay, or no player is local), or a guess is: it has no words or over 24, or it
    /// doesn't end 1 to 24 frames past the settled one.
    InvalidRequest = 11,
    /// A local player's word of this frame is missing.
    LocalInputMissing = 101,
    /// The local player's word of this frame was given already.
    InputTwice = 102,
    /// A word before this one has not come yet.
    Gap = 103,
    /// Another word was taken for this frame.
    Conflict = 104,
    /// The player is 128 words past the settled frame.
    QueueFull = 105,
    /// The last frame is reached.
    FrameLimit = 106,
    /// There was no memory, or no slot below the limit.
    NoMemory = 107,
    /// The job's states are not of this session.
    Stranger = 108,
    /// The job ends over 24 frames past the settled one.
    TooFar = 109,
    /// The job has nothing past the settled frame.
    Late = 110,
    /// The state that the job was run from is not kept any more.
    Orphan = 111,
    /// A word has come that is not the guessed one.
    Dead = 112,
    /// As many states are kept as jobs may fill.
    TreeFull = 113,
    /// The log is full.
    LogFull = 114,
    /// There was no rollback yet.
    NoPlan = 117,
    /// 64 jobs are out.
    Full = 119,
    /// There is no such job.
    NoJob = 120,
    /// Requests of the last roll were not taken, or not all of them were carried out.
    Pending = 202,
    /// The library is of another version than this crate.
    OtherVersion = 205,
    /// Bytes that are not of this opening of the match or line, were changed on their way, or are too few or too many.
    NotSealed = 301,
    /// Bytes that are sealed as they have to be, and no datagram of this version.
    NoDatagram = 302,
    /// There is no such machine in the match.
    InvalidMachine = 303,
    /// The machine is this one.
    OwnMachine = 304,
    /// The sender is gone.
    MachineGone = 305,
    /// The other end of the line means another match.
    Mismatched = 306,
    /// The sender sends words that it does not say that it has, or says that it has words that it was never given.
    Overstated = 307,
    /// The line has ended.
    Ended = 308,
    /// The other end of the line didn't send it.
    OtherSender = 309,
    /// What the host sends are no rows of this match's players.
    NoRows = 310,
    /// Rows before those that the host sends have not come yet.
    RowsMissing = 311,
    /// The sender tells of machines or players that the match hasn't, or not alike of all words of an input.
    Outside = 312,
    /// The session isn't the one that the peer plays, or was told of others past it.
    OtherSession = 313,
    /// An ask came to a taker, or a piece to a giver.
    OtherKind = 314,
    /// The ask or the piece is of another state.
    OtherState = 315,
    /// The sender alone gave a whole state that was wrong.
    Barred = 316,
    /// The pieces of another machine alone are taken for now.
    NotNow = 317,
    /// The state has no such piece.
    PastTheEnd = 318,
    /// The piece has fewer or more bytes than the state's piece there has.
    WrongLength = 319,
    /// The state has more bytes than the limit that the taker was given, or 2^32 or more.
    TooLong = 320,
    /// The match doesn't go on in epochs, so that no word has a mark.
    NoMarks = 321,
    /// The player has a mark in this epoch already.
    Marked = 322,
    /// The words of an input have other delays than each other: in the session, the epoch, or after a mark.
    UnlikeDelays = 323,
    /// The words of an input have two owners, or some of them have none.
    TwoOwners = 324,
    /// Too many words: an input that a machine owns has some past the eighth place.
    TooManyWords = 325,
    /// A number with another machine is 0.
    NoNumber = 326,
    /// The threshold of a mark is over 15, or over what the session's limits allow.
    GreatThreshold = 327,
    /// A delay of a mark is over 8 frames.
    LongDelay = 328,
    /// A mark gives a delay to a player that isn't this machine's.
    OthersDelay = 329,
    /// The ticket of a mark isn't of the match's `comers`, and the name in it.
    WrongTicket = 330,
    /// The epoch is over, and jobs are out: graft or forget them first.
    JobsOut = 331,
    /// The inputs of all players have over 32 bytes together, each rounded up to 4.
    InputsTooLong = 332,
    /// A setting of the match is out of its range.
    OutOfRange = 333,
    /// The inputs of a turn have another length than the match's.
    InputLength = 334,
}

/// All of them. bindings/numbers writes the list.
const ALL: [Error; 58] = [
    Error::InvalidPlayer,
    Error::PlayerOutOfRange,
    Error::PredictionThreshold,
    Error::PlayerDisconnected,
    Error::InvalidRequest,
    Error::LocalInputMissing,
    Error::InputTwice,
    Error::Gap,
    Error::Conflict,
    Error::QueueFull,
    Error::FrameLimit,
    Error::NoMemory,
    Error::Stranger,
    Error::TooFar,
    Error::Late,
    Error::Orphan,
    Error::Dead,
    Error::TreeFull,
    Error::LogFull,
    Error::NoPlan,
    Error::Full,
    Error::NoJob,
    Error::Pending,
    Error::OtherVersion,
    Error::NotSealed,
    Error::NoDatagram,
    Error::InvalidMachine,
    Error::OwnMachine,
    Error::MachineGone,
    Error::Mismatched,
    Error::Overstated,
    Error::Ended,
    Error::OtherSender,
    Error::NoRows,
    Error::RowsMissing,
    Error::Outside,
    Error::OtherSession,
    Error::OtherKind,
    Error::OtherState,
    Error::Barred,
    Error::NotNow,
    Error::PastTheEnd,
    Error::WrongLength,
    Error::TooLong,
    Error::NoMarks,
    Error::Marked,
    Error::UnlikeDelays,
    Error::TwoOwners,
    Error::TooManyWords,
    Error::NoNumber,
    Error::GreatThreshold,
    Error::LongDelay,
    Error::OthersDelay,
    Error::WrongTicket,
    Error::JobsOut,
    Error::InputsTooLong,
    Error::OutOfRange,
    Error::InputLength,
];

/// Longer than each sentence of the library.
const SENTENCE: usize = 256;

impl Error {
    /// The code that the C library answers.
    pub fn code(self) -> i32 {
        self as i32
    }
}

impl fmt::Display for Error {
    fn fmt(&self, out: &mut fmt::Formatter<'_>) -> fmt::Result {
        let mut text = [0; SENTENCE];
        // SAFETY: the library writes at most as many bytes as there is room for.
        let length = unsafe { raw::fazgrond_text(self.code(), text.as_mut_ptr(), SENTENCE) };
        out.write_str(&String::from_utf8_lossy(&text[..length.min(SENTENCE)]))
    }
}

impl std::error::Error for Error {}

/// What a code says, of those that what is open answers.
#[inline]
pub(crate) fn said(code: i32) -> Result<(), Error> {
    if code == 0 {
        Ok(())
    } else {
        refused(code)
    }
}

fn refused(code: i32) -> Result<(), Error> {
    match ALL.iter().find(|error| error.code() == code) {
        Some(error) => Err(*error),
        None => unreachable!("a call answered {code}"),
    }
}

#[cfg(test)]
mod tests {
    use super::{said, ALL, SENTENCE};

    #[test]
    fn each_error_has_its_code() {
        for error in ALL {
            assert_eq!(said(error.code()), Err(error));
            let text = error.to_string();
            assert!(text.len() > 5 && text.len() < SENTENCE && text.is_ascii(), "{error:?}: {text:?}");
            assert!(ALL.iter().all(|other| *other == error || other.to_string() != text), "{text:?} is said twice");
        }
    }
}
