//! Plays a script with the Tally game by GGPO's policy, without proof and without branches: reads it on standard input,
//! and prints what `rollduel` prints (docs/SCRIPTS.md). It keeps the states of the last frames in a ring; where a
//! prediction was wrong, it loads the state before the first wrong frame, and runs the frames from there on again.
//!
//! It takes scripts whose text is right, of at most a megabyte: those end before the limits of frames and of the log.

use std::io::{self, Read, Write};
use std::process::ExitCode;

/// Each player's word in a frame; none of one who has left.
type Row = [Option<u32>; 8];

struct Player {
    words: Vec<u32>,
    mask: u32,
    local: bool,
    given: bool,
    gone: bool,
}

impl Player {
    fn cell(&self, frame: usize) -> Option<u32> {
        match self.words.get(frame) {
            Some(word) => Some(*word),
            None if self.gone => None,
            None => Some(self.words.last().map_or(0, |word| word & self.mask)),
        }
    }
}

struct Session {
    players: Vec<Player>,
    threshold: usize,
    frame: usize,
    /// The first frame that was run with another row than it has now; the frame itself where there is none.
    wrong: usize,
    /// At place f modulo the length: the state before frame f, and the row that frame f was run with.
    states: Vec<u32>,
    rows: Vec<Row>,
}

/// The Tally game.
fn step(state: u32, row: &[Option<u32>]) -> u32 {
    let mut sum = 10 * u64::from(state);
    for (player, cell) in (1..).zip(row) {
        sum += cell.map_or(5, |word| player * u64::from(word));
    }
    (sum % 1_000_000) as u32
}

impl Session {
    /// How many frames have the words of all players.
    fn front(&self) -> usize {
        let here = self.players.iter().filter(|player| !player.gone);
        here.map(|player| player.words.len()).min().unwrap()
    }

    fn settled(&self) -> usize {
        self.front().min(self.wrong)
    }

    /// The place of a player who is local, or remote.
    fn place(&self, player: u32, local: bool) -> Result<usize, u32> {
        let place = (player as usize).wrapping_sub(1);
        match self.players.get(place) {
            Some(found) if found.local == local => Ok(place),
            _ => Err(2),
        }
    }

    fn local(&mut self, player: u32, word: u32) -> Result<(), u32> {
        let place = self.place(player, true)?;
        if self.players[place].given {
            return Err(102);
        }
        if self.frame >= self.front() + self.threshold {
            return Err(4);
        }
        self.players[place].words.push(word);
        self.players[place].given = true;
        Ok(())
    }

    /// Whether the word is new.
    fn remote(&mut self, player: u32, frame: u32, word: u32) -> Result<bool, u32> {
        let place = self.place(player, false)?;
        let settled = self.settled();
        let player = &mut self.players[place];
        let (frame, count) = (frame as usize, player.words.len());
        match player.words.get(frame) {
            _ if player.gone => return Err(9),
            Some(known) if *known == word => return Ok(false),
            Some(_) => return Err(104),
            None if frame > count => return Err(103),
            None if count - settled >= 128 => return Err(105),
            None => player.words.push(word),
        }
        if frame < self.wrong && self.rows[frame % self.rows.len()][place] != Some(word) {
            self.wrong = frame;
        }
        Ok(true)
    }

    fn disconnect(&mut self, player: u32) -> Result<(), u32> {
        let place = self.place(player, false)?;
        let player = &mut self.players[place];
        if player.gone {
            return Err(9);
        }
        player.gone = true;
        self.wrong = self.wrong.min(player.words.len());
        Ok(())
    }

    fn advance(&mut self, out: &mut Vec<u8>) -> Result<(), u32> {
        let mut players = self.players.iter();
        if players.any(|player| player.local && !player.given) {
            return Err(101);
        }
        self.roll(self.frame + 1, out);
        for player in &mut self.players {
            player.given = false;
        }
        Ok(())
    }

    /// Runs the frames from the first wrong one up to this one, which becomes the current one, and prints that.
    fn roll(&mut self, to: usize, out: &mut Vec<u8>) {
        let (from, ring) = (self.wrong, self.states.len());
        let mut state = self.states[from % ring];
        for frame in from..to {
            let row = &mut self.rows[frame % ring];
            for (cell, player) in row.iter_mut().zip(&self.players) {
                *cell = player.cell(frame);
            }
            state = step(state, &row[..self.players.len()]);
            self.states[(frame + 1) % ring] = state;
        }
        self.frame = to;
        self.wrong = to;
        let (rerun, settled) = (to - from, self.settled());
        let _ = write!(out, "frame {to} from {from} rerun {rerun} ");
        let _ = writeln!(out, "settled {settled} state {state}");
    }
}

fn number(text: &str) -> Option<u32> {
    text.parse().ok()
}

fn list(text: &str) -> Option<Vec<u32>> {
    text.split(',').map(number).collect()
}

/// The session that a header asks for, or its refusal; none where the line can't be read.
fn start(line: &str) -> Option<Result<Session, u32>> {
    let fields: Vec<&str> = line.split(' ').collect();
    let (version, local, delays, masks, threshold) = match fields[..] {
        [_, v, _, _, _, l, _, d, _, k] => (v, l, d, None, k),
        [_, v, _, _, _, l, _, d, _, m, _, k] => (v, l, d, Some(m), k),
        _ => return None,
    };
    let (local, delays, threshold) = (list(local)?, list(delays)?, number(threshold)? as usize);
    let masks = masks.map_or(Some(vec![u32::MAX; 8]), list)?;
    let (most_players, most_threshold) = if version == "3" { (8, 15) } else { (4, 8) };
    let is_local = |place: usize| local.contains(&(place as u32 + 1));
    let most_delay = |place| if is_local(place) { 8 } else { 0 };
    if delays.len() > most_players {
        return Some(Err(3));
    }
    if local.iter().any(|player| *player as usize > delays.len())
        || (0..delays.len()).any(|place| delays[place] > most_delay(place))
        || !(1..=most_threshold).contains(&threshold)
    {
        return Some(Err(11));
    }
    let player = |place: usize| Player {
        words: vec![0; delays[place] as usize],
        mask: masks[place],
        local: is_local(place),
        given: false,
        gone: false,
    };
    Some(Ok(Session {
        players: (0..delays.len()).map(player).collect(),
        threshold,
        frame: 0,
        wrong: 0,
        states: vec![0; threshold + 2],
        rows: vec![[None; 8]; threshold + 2],
    }))
}

/// Plays a line and prints its reply, unless that is a refusal; none where the line can't be read.
fn play(session: &mut Session, line: &str, out: &mut Vec<u8>) -> Option<Result<(), u32>> {
    let mut fields = line.split(' ');
    let kind = fields.next()?;
    let mut next = || fields.next().and_then(number);
    Some(match kind {
        "L" => session
            .local(next()?, next()?)
            .map(|()| out.extend(b"ok\n")),
        "R" => session.remote(next()?, next()?, next()?).map(|new| {
            out.extend_from_slice(if new { b"taken\n" } else { b"repeated\n" });
        }),
        "D" => {
            let player = next()?;
            session.disconnect(player).map(|()| {
                let _ = writeln!(out, "gone {player}");
            })
        }
        "S" => Ok(session.roll(session.frame, out)),
        "A" => session.advance(out),
        _ => return None,
    })
}

/// Plays a script, and tells whether a reply was a refusal; none where a line can't be read.
fn play_all(text: &str, out: &mut Vec<u8>) -> Option<bool> {
    let mut lines = text.lines();
    let mut session = match start(lines.next()?)? {
        Ok(session) => session,
        Err(code) => {
            let _ = writeln!(out, "refused {code}");
            return Some(true);
        }
    };
    let mut refused = false;
    for line in lines {
        if let Err(code) = play(&mut session, line, out)? {
            let _ = writeln!(out, "refused {code}");
            refused = true;
        }
    }
    Some(refused)
}

fn main() -> io::Result<ExitCode> {
    let (mut text, mut out) = (String::new(), Vec::new());
    io::stdin().read_to_string(&mut text)?;
    let refused = match play_all(&text, &mut out) {
        Some(refused) => refused,
        None => {
            eprintln!("plain: unreadable");
            return Ok(ExitCode::from(2));
        }
    };
    io::stdout().write_all(&out)?;
    Ok(ExitCode::from(u8::from(refused)))
}
