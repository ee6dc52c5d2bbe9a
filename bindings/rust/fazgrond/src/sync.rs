use crate::row::Row;
use crate::session::Game;

/// A sync test: does a game come out the same when it is run again? It runs frames with these rows, `depth` at a time, goes back to the
/// state before them, and runs them once more. Answers the first frame that comes out another, or whose state before it has changed since
/// it was saved, as one that it shares with the game has; none if there is no such frame. The game is afterwards at its last frame.
///
/// `digest` makes something of a state that is another for most other states.
///
/// ```
/// # use fazgrond::{sync_test, Game, Row};
/// /// A sum of all words, and a counter that is no part of its state.
/// #[derive(Default)]
/// struct Sum(u32, u32);
///
/// impl Game for Sum {
///     type State = u32;
///
///     fn save(&self) -> u32 {
///         self.0
///     }
///
///     fn load(&mut self, state: &u32) {
///         self.0 = *state;
///     }
///
///     fn advance(&mut self, row: &Row) {
///         self.1 += 1;
///         self.0 += row.cells().flatten().sum::<u32>() + self.1 / 10;
///     }
/// }
///
/// let rows = [Row::new(&[1, 2]); 30];
/// assert_eq!(sync_test(&mut Sum::default(), &rows, 8, |state| *state), Some(1)); // the tenth step: of frame 1, as it is run again
/// ```
///
/// # Panics
///
/// If `depth` is 0.
pub fn sync_test<G: Game, D: PartialEq>(
    game: &mut G,
    rows: &[Row],
    depth: usize,
    digest: impl Fn(&G::State) -> D,
) -> Option<usize> {
    let mut blocks = rows.chunks(depth).zip((0..).step_by(depth));
    blocks.find_map(|(rows, first)| Some(first + first_other(game, rows, &digest)?))
}

/// Which of some frames is the first that comes out another.
fn first_other<G: Game, D: PartialEq>(game: &mut G, rows: &[Row], digest: &impl Fn(&G::State) -> D) -> Option<usize> {
    let mut states = vec![game.save()];
    let mut digests = vec![digest(&states[0])];
    for row in rows {
        game.advance(row);
        let state = game.save();
        digests.push(digest(&state));
        states.push(state);
    }
    game.load(&states[0]);
    let again = rows.iter().map(|row| {
        game.advance(row);
        digest(&game.save())
    });
    let again: Vec<D> = again.collect();
    let other = again.iter().zip(&digests[1..]).position(|(again, first)| again != first);
    let changed = states.iter().zip(&digests).position(|(state, first)| digest(state) != *first);
    other.into_iter().chain(changed).min()
}
