//! Tally, a game of one number, and a word of player 2 that comes late.
use fazgrond::{Error, Game, Row, Session, Settings};

struct Tally(u64);

/// A saved state.
struct Saved(u64);

impl Game for Tally {
    type State = Saved;

    fn save(&self) -> Saved {
        Saved(self.0)
    }

    fn load(&mut self, saved: &Saved) {
        self.0 = saved.0;
        println!("  load: state {}", self.0);
    }

    /// Ten times the number, and of each player the number times the word, or 5 if the player has left.
    fn advance(&mut self, row: &Row) {
        let added: u64 =
            (1..).zip(row.cells()).map(|(player, word)| word.map_or(5, |word| player * u64::from(word))).sum();
        self.0 = (10 * self.0 + added) % 1_000_000;
        println!("  step: state {}", self.0);
    }
}

fn advance(session: &mut Session<Tally>) -> Result<(), Error> {
    session.add_local_input(1, 1)?;
    let reached = session.advance_frame()?;
    println!("frame {} from {} rerun {} state {}", reached.frame, reached.from, reached.rerun, session.game().0);
    Ok(())
}

fn main() -> Result<(), Error> {
    let mut session = Session::open(&Settings::new(2, &[1]), Tally(0))?;
    advance(&mut session)?;
    advance(&mut session)?;

    println!("player 2 gave 3 in frame 0");
    session.remote_input(2, 0, 3)?;
    session.synchronize_input()?;

    println!("settled {} state {}", session.settled(), session.game().0);
    Ok(())
}
