//! A session after docs/RULES.md, with no thought of speed: it has all words, and every state that was ever saved.
use fazgrond::{Error, Heard, Reached};

/// Each player's word, or None in place of that of one who has left.
pub type Row = Vec<Option<u32>>;

/// The settings that count here.
#[derive(Clone, Debug)]
pub struct Rules {
    pub players: u8,
    pub local: Vec<u8>,
    pub delays: Vec<u32>,
    pub masks: Vec<u32>,
    pub threshold: u32,
    pub limit: u32,
    pub log: u32,
}

impl Rules {
    pub fn is_wide(&self) -> bool {
        self.players > 4
    }
}

#[derive(Clone)]
struct Player {
    local: bool,
    mask: u32,
    words: Vec<u32>,
    gone: bool,
    given: bool,
}

impl Player {
    fn cell(&self, frame: usize) -> Option<u32> {
        match self.words.get(frame) {
            Some(word) => Some(*word),
            None if self.gone => None,
            None => Some(self.words.last().copied().unwrap_or(0) & self.mask),
        }
    }
}

/// How a path came to be saved.
#[derive(Clone, Copy, PartialEq)]
enum By {
    Roll,
    Graft,
}

#[derive(Default)]
struct Node {
    children: Vec<(Row, usize)>,
    saved: Option<By>,
}

/// Paths that were ever saved, as a tree: the root is the opening.
struct Paths(Vec<Node>);

impl Paths {
    fn new() -> Paths {
        Paths(vec![Node { children: Vec::new(), saved: Some(By::Roll) }])
    }

    fn child(&self, at: usize, row: &Row) -> Option<usize> {
        self.0[at].children.iter().find(|(there, _)| there == row).map(|(_, child)| *child)
    }

    /// The node of a path, if it begins one that was saved.
    fn node(&self, rows: &[Row]) -> Option<usize> {
        rows.iter().try_fold(0, |at, row| self.child(at, row))
    }

    fn is_saved(&self, rows: &[Row]) -> bool {
        self.node(rows).map_or(false, |at| self.0[at].saved.is_some())
    }

    /// The length of the longest one that begins these rows, and its node.
    fn longest(&self, rows: &[Row]) -> (usize, usize) {
        let (mut at, mut longest) = (0, (0, 0));
        for (length, row) in rows.iter().enumerate() {
            at = match self.child(at, row) {
                Some(child) => child,
                None => break,
            };
            if self.0[at].saved.is_some() {
                longest = (length + 1, at);
            }
        }
        longest
    }

    /// Adds those that begin these rows and are longer than this, but for those that are there.
    fn save(&mut self, rows: &[Row], longer_than: usize, by: By) {
        let mut at = 0;
        for (length, row) in rows.iter().enumerate() {
            at = self.child(at, row).unwrap_or_else(|| {
                let next = self.0.len();
                self.0[at].children.push((row.clone(), next));
                self.0.push(Node::default());
                next
            });
            if length >= longer_than {
                self.0[at].saved.get_or_insert(by);
            }
        }
    }

    /// How many lead on from a node, itself among them, by rows that may be.
    fn count(&self, at: usize, frame: usize, may_be: &impl Fn(usize, &Row) -> bool) -> usize {
        let node = &self.0[at];
        let on = node.children.iter().filter(|(row, _)| may_be(frame, row));
        usize::from(node.saved.is_some()) + on.map(|(_, child)| self.count(*child, frame + 1, may_be)).sum::<usize>()
    }
}

/// What a job is to run: the path of the state that it starts from, and the next rows.
#[derive(Clone, PartialEq, Debug)]
pub struct Job {
    pub start: Vec<Row>,
    pub rows: Vec<Row>,
}

/// So many jobs can be out.
const JOBS: usize = 64;

pub struct Model {
    rules: Rules,
    players: Vec<Player>,
    frame: usize,
    paths: Paths,
    logged: u32,
    jobs: Vec<Option<Job>>,
    /// Where the last roll started.
    pub from: usize,
    /// How many rolls started from a state of a job, each state counted once.
    pub helped: u32,
}

impl Model {
    pub fn new(rules: &Rules) -> Model {
        let player = |at: usize| {
            let local = rules.local.contains(&(at as u8 + 1));
            let zeros = if local { rules.delays[at] as usize } else { 0 };
            Player { local, mask: rules.masks[at], words: vec![0; zeros], gone: false, given: false }
        };
        Model {
            rules: rules.clone(),
            players: (0..rules.players.into()).map(player).collect(),
            frame: 0,
            paths: Paths::new(),
            logged: 0,
            jobs: Vec::new(),
            from: 0,
            helped: 0,
        }
    }

    pub fn frame(&self) -> u32 {
        self.frame as u32
    }

    pub fn timeline(&self, rows: usize) -> Vec<Row> {
        (0..rows).map(|frame| self.row(frame)).collect()
    }

    pub fn settled(&self) -> u32 {
        self.paths.longest(&self.timeline(self.front().min(self.frame))).0 as u32
    }

    pub fn settled_row(&self, frame: u32) -> Option<Row> {
        (frame < self.settled()).then(|| self.row(frame as usize))
    }

    pub fn confirmed(&self, player: u8) -> Option<u32> {
        Some(self.player(player)?.words.len() as u32)
    }

    pub fn confirmed_word(&self, player: u8, frame: u32) -> Option<u32> {
        self.player(player)?.words.get(frame as usize).copied()
    }

    pub fn input_frame(&self, player: u8) -> Option<u32> {
        self.player(player).filter(|player| player.local).map(|player| player.words.len() as u32)
    }

    pub fn add_local_input(&mut self, player: u8, word: u32) -> Result<(), Error> {
        let there = self.player(player).filter(|player| player.local).ok_or(Error::InvalidPlayer)?;
        refuse(there.given, Error::InputTwice)?;
        refuse(self.frame >= self.front() + self.rules.threshold as usize, Error::PredictionThreshold)?;
        refuse(self.frame() == self.rules.limit, Error::FrameLimit)?;
        self.log()?;
        let there = self.player_mut(player);
        there.words.push(word);
        there.given = true;
        Ok(())
    }

    pub fn remote_input(&mut self, player: u8, frame: u32, word: u32) -> Result<Heard, Error> {
        let there = self.player(player).filter(|player| !player.local).ok_or(Error::InvalidPlayer)?;
        refuse(there.gone, Error::PlayerDisconnected)?;
        match there.words.get(frame as usize) {
            Some(known) if *known == word => return Ok(Heard::Repeated),
            Some(_) => return Err(Error::Conflict),
            None => {}
        }
        refuse((frame as usize) > there.words.len(), Error::Gap)?;
        refuse(there.words.len() >= 128 + self.settled() as usize, Error::QueueFull)?;
        self.log()?;
        self.player_mut(player).words.push(word);
        Ok(Heard::Taken)
    }

    pub fn disconnect_player(&mut self, player: u8) -> Result<(), Error> {
        let there = self.player(player).filter(|player| !player.local).ok_or(Error::InvalidPlayer)?;
        refuse(there.gone, Error::PlayerDisconnected)?;
        self.log()?;
        self.player_mut(player).gone = true;
        Ok(())
    }

    pub fn synchronize_input(&mut self) -> Result<Row, Error> {
        self.log()?;
        self.roll(self.frame);
        Ok(self.row(self.frame))
    }

    pub fn advance_frame(&mut self) -> Result<Reached, Error> {
        refuse(self.lacks_words(), Error::LocalInputMissing)?;
        self.log()?;
        let frame = self.frame + 1;
        self.roll(frame);
        self.frame = frame;
        for player in &mut self.players {
            player.given = false;
        }
        Ok(Reached { frame: frame as u32, from: self.from as u32, rerun: (frame - self.from) as u32 })
    }

    /// How many frames a roll by so many frames would run.
    pub fn rerun(&self, by: u32) -> usize {
        let rows = self.timeline(self.frame + by as usize);
        rows.len() - self.paths.longest(&rows).0
    }

    /// Why a guess is refused, or what its job is to run, if anything.
    pub fn guess(&self, player: u8, words: &[u32], until: u32) -> Result<Option<Job>, Error> {
        refuse(self.jobs.iter().flatten().count() == JOBS, Error::Full)?;
        let there = self.player(player).ok_or(Error::InvalidPlayer)?;
        refuse(there.gone, Error::PlayerDisconnected)?;
        refuse(words.is_empty() || words.len() > 24, Error::InvalidRequest)?;
        let ahead = i64::from(until) - i64::from(self.settled());
        refuse(!(1..=24).contains(&ahead) || until > self.rules.limit, Error::InvalidRequest)?;
        let guessed = Player { words: [&there.words, words].concat(), ..*there };
        let is_guessed = |at: usize| at + 1 == usize::from(player);
        let cell = |frame: usize, at: usize| if is_guessed(at) { &guessed } else { &self.players[at] }.cell(frame);
        let row = |frame: usize| (0..self.players.len()).map(|at| cell(frame, at)).collect();
        let mut rows: Vec<Row> = (0..until as usize).map(row).collect();
        let (start, _) = self.paths.longest(&rows);
        rows.truncate(start + 8);
        let on = rows.split_off(start);
        Ok((!on.is_empty()).then_some(Job { start: rows, rows: on }))
    }

    /// Notes a job under the number that it was given, which no other job may have.
    pub fn add_job(&mut self, number: u32, job: Job) {
        let at = number as usize;
        assert!(at < JOBS, "a job has the number {number}");
        if at >= self.jobs.len() {
            self.jobs.resize(at + 1, None);
        }
        assert!(self.jobs[at].is_none(), "two jobs have the number {number}");
        self.jobs[at] = Some(job);
    }

    pub fn graft(&mut self, number: u32) -> Result<u32, Error> {
        let Job { start, rows } = self.take_job(number)?;
        let settled = self.settled() as usize;
        let anchor = start.len().max(settled);
        let whole = [start, rows].concat();
        refuse(whole.len() > settled + 24, Error::TooFar)?;
        refuse(whole.len() <= settled, Error::Late)?;
        refuse(!self.is_possible(&whole[..anchor]), Error::Dead)?;
        refuse(!self.paths.is_saved(&whole[..anchor]), Error::Orphan)?;
        let possible = (anchor..whole.len()).take_while(|frame| self.may_be(*frame, &whole[*frame])).count();
        let whole = &whole[..anchor + possible];
        let added = (anchor + 1..=whole.len()).filter(|length| !self.paths.is_saved(&whole[..*length])).count();
        let most = if self.rules.is_wide() { 224 } else { 240 };
        refuse(added > 0 && self.kept() + added > most, Error::TreeFull)?;
        self.log()?;
        self.paths.save(whole, anchor, By::Graft);
        Ok(added as u32)
    }

    pub fn forget(&mut self, number: u32) -> Result<(), Error> {
        self.take_job(number).map(|_| ())
    }

    fn take_job(&mut self, number: u32) -> Result<Job, Error> {
        self.jobs.get_mut(number as usize).and_then(Option::take).ok_or(Error::NoJob)
    }

    pub fn reserve_log(&self, events: u32) -> Result<(), Error> {
        refuse(events > self.rules.log - self.logged, Error::LogFull)
    }

    fn player(&self, player: u8) -> Option<&Player> {
        self.players.get(usize::from(player).checked_sub(1)?)
    }

    fn player_mut(&mut self, player: u8) -> &mut Player {
        &mut self.players[usize::from(player) - 1]
    }

    fn row(&self, frame: usize) -> Row {
        self.players.iter().map(|player| player.cell(frame)).collect()
    }

    fn front(&self) -> usize {
        let there = self.players.iter().filter(|player| !player.gone);
        there.map(|player| player.words.len()).min().expect("local players never leave")
    }

    fn log(&mut self) -> Result<(), Error> {
        refuse(self.logged >= self.rules.log, Error::LogFull)?;
        self.logged += 1;
        Ok(())
    }

    fn lacks_words(&self) -> bool {
        self.players.iter().any(|player| player.local && !player.given)
    }

    /// A roll to a frame.
    fn roll(&mut self, frame: usize) {
        let rows = self.timeline(frame);
        let (from, node) = self.paths.longest(&rows);
        self.paths.save(&rows, from, By::Roll);
        self.from = from;
        if self.paths.0[node].saved.replace(By::Roll) == Some(By::Graft) {
            self.helped += 1;
        }
    }

    /// Whether nothing that is known contradicts a row of this frame.
    fn may_be(&self, frame: usize, row: &Row) -> bool {
        self.players.iter().zip(row).all(|(player, cell)| match player.words.get(frame) {
            Some(word) => *cell == Some(*word),
            None => !player.gone || cell.is_none(),
        })
    }

    fn is_possible(&self, rows: &[Row]) -> bool {
        rows.iter().enumerate().all(|(frame, row)| self.may_be(frame, row))
    }

    /// How many paths are kept.
    pub fn kept(&self) -> usize {
        let settled = self.settled() as usize;
        let node = self.paths.node(&self.timeline(settled)).expect("the settled path is saved");
        self.paths.count(node, settled, &|frame, row| self.may_be(frame, row))
    }
}

fn refuse(is_so: bool, why: Error) -> Result<(), Error> {
    if is_so {
        Err(why)
    } else {
        Ok(())
    }
}
