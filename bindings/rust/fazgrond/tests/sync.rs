//! Sync tests: a game that comes out the same passes, and of others the first frame is found that doesn't.

use fazgrond::{sync_test, Game, Row};
use std::cell::RefCell;
use std::rc::Rc;

/// Two sums, in a list that its states may share with it; and how many steps there were.
#[derive(Default)]
struct Sums {
    list: Rc<RefCell<[u32; 2]>>,
    steps: u32,
    fault: Fault,
}

#[derive(Clone, Copy, PartialEq, Default)]
enum Fault {
    #[default]
    None,
    /// It hands out its own list, which goes on to change.
    Lends,
    /// It goes on in the list that it was given.
    Borrows,
    /// Its steps are no part of its state, and make each hundredth frame another one.
    Hides,
}

fn copy(list: &Rc<RefCell<[u32; 2]>>) -> Rc<RefCell<[u32; 2]>> {
    Rc::new(RefCell::new(*list.borrow()))
}

impl Game for Sums {
    type State = Rc<RefCell<[u32; 2]>>;

    fn save(&self) -> Self::State {
        if self.fault == Fault::Lends {
            Rc::clone(&self.list)
        } else {
            copy(&self.list)
        }
    }

    fn load(&mut self, state: &Self::State) {
        self.list = if self.fault == Fault::Borrows { Rc::clone(state) } else { copy(state) };
    }

    fn advance(&mut self, row: &Row) {
        self.steps += 1;
        let mut list = self.list.borrow_mut();
        list[0] = row.cells().flatten().fold(list[0], |sum, word| (31 * sum + word) % 1009);
        list[1] = (list[1] + list[0]) % 1013;
        list[0] += u32::from(self.fault == Fault::Hides && self.steps % 100 == 0);
    }
}

fn found(fault: Fault, depth: usize) -> Option<usize> {
    let rows: Vec<Row> = (0..80).map(|frame| Row::new(&[frame * 7 % 5, frame * 3 % 4])).collect();
    sync_test(&mut Sums { fault, ..Sums::default() }, &rows, depth, |state| *state.borrow())
}

#[test]
fn a_game_that_comes_out_the_same() {
    assert_eq!([1, 8, 80, 100].map(|depth| found(Fault::None, depth)), [None; 4]);
}

/// Frames are run twice, eight by eight: the hundredth step is that of frame 51.
#[test]
fn the_first_frame_that_comes_out_another() {
    assert_eq!([Fault::Lends, Fault::Borrows].map(|fault| found(fault, 8)), [Some(0), Some(0)]);
    assert_eq!((found(Fault::Hides, 8), found(Fault::Hides, 80)), (Some(51), Some(19)));
}
