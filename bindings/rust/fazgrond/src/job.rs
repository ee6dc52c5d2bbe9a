use crate::row::Row;
use crate::session::Game;
use std::sync::{Arc, Weak};

/// The right to a job's number. Once it is dropped, the session gives the job up.
#[derive(Debug)]
pub(crate) struct Ticket {
    number: u32,
    life: Arc<()>,
}

impl Ticket {
    pub(crate) fn number(&self) -> u32 {
        self.number
    }
}

/// Frames of a guess that are to be run: a state to start from, and the rows that follow.
///
/// It can be sent to another thread and run there, on a game of that thread's own, while the session goes on. A job that is
/// dropped is given up.
#[derive(Debug)]
#[must_use = "a job that is dropped is given up"]
pub struct Job<S> {
    pub(crate) ticket: Ticket,
    pub(crate) start: S,
    pub(crate) rows: Vec<Row>,
}

impl<S> Job<S> {
    /// Its number, which no other job of the session has while this one is out.
    pub fn number(&self) -> u32 {
        self.ticket.number
    }

    /// The state to start from.
    pub fn start(&self) -> &S {
        &self.start
    }

    /// The rows to run from there, one after another: 1 to 8.
    pub fn rows(&self) -> &[Row] {
        &self.rows
    }

    /// Runs it. The game's current state becomes that of the last frame, so it is a helper, and not the game that is shown.
    pub fn run(self, helper: &mut impl Game<State = S>) -> Done<S> {
        helper.load(&self.start);
        let states = self.rows.iter().map(|row| {
            helper.advance(row);
            helper.save()
        });
        Done { states: states.collect(), ticket: self.ticket }
    }
}

/// A job that was run, to be handed to [`Session::graft`](crate::Session::graft). If it is dropped, it is given up.
#[derive(Debug)]
#[must_use = "a job that is dropped is given up"]
pub struct Done<S> {
    pub(crate) ticket: Ticket,
    pub(crate) states: Vec<S>,
}

impl<S> Done<S> {
    /// The job's number.
    pub fn number(&self) -> u32 {
        self.ticket.number
    }

    /// The states that it made, one after each row.
    pub fn states(&self) -> &[S] {
        &self.states
    }
}

/// A job that is out, as the session knows it.
#[derive(Debug)]
struct Out {
    number: u32,
    slots: Vec<usize>,
    life: Weak<()>,
}

/// The jobs that are out.
#[derive(Debug, Default)]
pub(crate) struct Jobs(Vec<Out>);

impl Jobs {
    #[inline]
    pub(crate) fn is_empty(&self) -> bool {
        self.0.is_empty()
    }

    /// Notes a job and the slots of its states.
    pub(crate) fn add(&mut self, number: u32, slots: Vec<usize>) -> Ticket {
        let life = Arc::new(());
        self.0.push(Out { number, slots, life: Arc::downgrade(&life) });
        Ticket { number, life }
    }

    /// Takes out the job of a ticket, and answers its slots. None if the ticket is another session's.
    pub(crate) fn take(&mut self, ticket: &Ticket) -> Option<Vec<usize>> {
        let at = self.0.iter().position(|out| out.life.as_ptr() == Arc::as_ptr(&ticket.life))?;
        Some(self.0.swap_remove(at).slots)
    }

    /// The numbers of all.
    pub(crate) fn numbers(&self) -> impl Iterator<Item = u32> + '_ {
        self.0.iter().map(|out| out.number)
    }

    /// Takes out the jobs that were dropped, and answers their numbers.
    pub(crate) fn dropped(&mut self) -> Vec<u32> {
        let mut numbers = Vec::new();
        self.0.retain(|out| {
            let is_out = out.life.strong_count() > 0;
            if !is_out {
                numbers.push(out.number);
            }
            is_out
        });
        numbers
    }
}
