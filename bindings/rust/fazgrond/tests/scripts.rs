//! Random scripts, played through the library and by the program `rollduel`: both write the same replies. See docs/SCRIPTS.md.
//!
//! The program is what FAZGROND_ROLLDUEL names, else what was built in this repository. Nothing is compared if there is none.
mod random_numbers;

use fazgrond::{Error, Game, Heard, Job, Row, Session, Settings};
use random_numbers::Random;
use std::collections::BTreeMap;
use std::env;
use std::fmt::{Display, Write as _};
use std::io::Write as _;
use std::path::{Path, PathBuf};
use std::process::{Command, Stdio};

const SCRIPTS: u64 = 20_000;
const COMMANDS: u32 = 120;

/// The program's tally, which counts its steps.
#[derive(Default)]
struct Tally {
    sum: u32,
    steps: u32,
}

impl Game for Tally {
    type State = u32;

    fn save(&self) -> u32 {
        self.sum
    }

    fn load(&mut self, sum: &u32) {
        self.sum = *sum;
    }

    /// Ten times the sum, and of each player the number times the word, or 5 if the player has left.
    fn advance(&mut self, row: &Row) {
        let added: u64 =
            (1..).zip(row.cells()).map(|(player, word)| word.map_or(5, |word| player * u64::from(word))).sum();
        self.sum = ((10 * u64::from(self.sum) + added) % 1_000_000) as u32;
        self.steps += 1;
    }
}

fn list<T: Display>(items: impl IntoIterator<Item = T>) -> String {
    items.into_iter().map(|item| item.to_string()).collect::<Vec<_>>().join(",")
}

/// A first line.
struct Header {
    version: u32,
    players: u8,
    local: Vec<u8>,
    delays: Vec<u32>,
    masks: Vec<u32>,
    threshold: u32,
}

impl Header {
    fn random(random: &mut Random) -> Header {
        let version = 1 + random.below(3);
        let players = match version {
            3 => 1 + random.below(8),
            _ if random.one_in(2) => 2,
            _ => 1 + random.below(4),
        } as u8;
        let last = if random.one_in(100) { 8 } else { players };
        let mut local: Vec<u8> = (1..=last).filter(|_| random.one_in(3)).collect();
        if local.is_empty() {
            local.push(1 + random.below(u32::from(players)) as u8);
        }
        let delays = (1..=players).map(|player| {
            let most = if random.one_in(50) { 9 } else { 2 };
            if local.contains(&player) || random.one_in(200) {
                random.below(most + 1)
            } else {
                0
            }
        });
        let delays = delays.collect();
        let mut mask = || if version == 1 || random.one_in(2) { u32::MAX } else { random.next() as u32 };
        let masks = (0..players).map(|_| mask()).collect();
        let most = if version == 3 { 15 } else { 8 };
        let threshold = if random.one_in(100) { random.below(20) } else { 1 + random.below(most) };
        Header { version, players, local, delays, masks, threshold }
    }

    fn line(&self) -> String {
        let Header { version, players, local, delays, masks, threshold } = self;
        let (local, delays) = (list(local), list(delays));
        let masks = if *version == 1 { String::new() } else { format!(" mask {}", list(masks)) };
        format!("roll {version} players {players} local {local} delay {delays}{masks} threshold {threshold}\n")
    }

    fn settings(&self) -> Settings {
        let settings = Settings::new(self.players, &self.local);
        let settings = if self.version == 3 { settings.wide() } else { settings }.threshold(self.threshold);
        (1..=self.players)
            .zip(&self.delays)
            .zip(&self.masks)
            .fold(settings, |settings, ((player, delay), mask)| settings.delay(player, *delay).mask(player, *mask))
    }
}

/// What came of a script.
#[derive(Default)]
struct Played {
    text: String,
    replies: String,
    refused: bool,
    /// How often there was a reply that begins with this word, or with this word and number.
    kinds: BTreeMap<String, u32>,
    grafted: u32,
}

impl Played {
    fn ask(&mut self, line: String) {
        self.text.push_str(&line);
        self.text.push('\n');
    }

    /// Writes a reply, or why the command was refused.
    fn reply(&mut self, reply: Result<String, Error>) {
        self.refused |= reply.is_err();
        let (line, kind) = match reply {
            Ok(line) => (line.clone(), line.split(' ').next().unwrap_or_default().to_string()),
            Err(why) => {
                let line = format!("refused {}", why.code());
                (line.clone(), line)
            }
        };
        *self.kinds.entry(kind).or_default() += 1;
        self.replies.push_str(&line);
        self.replies.push('\n');
    }
}

/// A script that is made up while it is played.
struct Script {
    random: Random,
    seed: u64,
    header: Header,
    session: Session<Tally>,
    jobs: Vec<Option<Job<u32>>>,
    played: Played,
}

fn play(seed: u64) -> Played {
    let mut random = Random(seed);
    let header = Header::random(&mut random);
    let mut played = Played { text: header.line(), ..Played::default() };
    match Session::open(&header.settings(), Tally::default()) {
        Ok(session) => {
            let mut script = Script { random, seed, header, session, jobs: Vec::new(), played };
            for _ in 0..COMMANDS {
                script.command();
            }
            script.played
        }
        Err(why) => {
            played.reply(Err(why));
            played
        }
    }
}

impl Script {
    fn command(&mut self) {
        match self.random.below(100) {
            0..=9 => {
                let player = self.some_player();
                self.local(player);
            }
            10..=34 => {
                for player in self.header.local.clone() {
                    self.local(player);
                }
                self.advance();
            }
            35..=36 => self.advance(),
            37..=61 => self.remote(),
            62 => self.disconnect(),
            63..=72 => self.synchronize(),
            73..=84 => self.guess(),
            85..=96 => self.extend(),
            _ => self.claim(),
        }
    }

    fn some_player(&mut self) -> u8 {
        if self.random.one_in(8) {
            self.random.player(self.header.players)
        } else {
            1 + self.random.below(u32::from(self.header.players)) as u8
        }
    }

    fn some_remote(&mut self) -> u8 {
        let player = self.some_player();
        if self.header.local.contains(&player) {
            self.some_player()
        } else {
            player
        }
    }

    /// The word that a player most often gives for a frame.
    fn word_to_come(&self, player: u8, frame: u32) -> u32 {
        Random(self.seed ^ u64::from(player) << 32 ^ u64::from(frame)).word()
    }

    fn local(&mut self, player: u8) {
        let word = self.random.word();
        self.played.ask(format!("L {player} {word}"));
        let reply = self.session.add_local_input(player, word);
        self.played.reply(reply.map(|()| "ok".to_string()));
    }

    fn remote(&mut self) {
        let player = self.some_remote();
        let next = self.session.confirmed(player).unwrap_or_default();
        let frame = match self.random.below(12) {
            0 => next + 1 + self.random.below(3),
            1 if next > 0 => self.random.below(next),
            _ => next,
        };
        let known = self.session.confirmed_word(player, frame).filter(|_| self.random.one_in(2));
        let word = match known {
            Some(word) => word,
            None if self.random.one_in(4) => self.random.word(),
            None => self.word_to_come(player, frame),
        };
        self.played.ask(format!("R {player} {frame} {word}"));
        let reply = self.session.remote_input(player, frame, word).map(|heard| match heard {
            Heard::Taken => "taken".to_string(),
            Heard::Repeated => "repeated".to_string(),
        });
        self.played.reply(reply);
    }

    fn disconnect(&mut self) {
        let player = self.some_remote();
        self.played.ask(format!("D {player}"));
        let reply = self.session.disconnect_player(player);
        self.played.reply(reply.map(|()| format!("gone {player}")));
    }

    fn synchronize(&mut self) {
        self.played.ask("S".to_string());
        let before = self.session.game().steps;
        let reply = self.session.synchronize_input().map(|_| {
            let (frame, rerun) = (self.session.frame(), self.session.game().steps - before);
            self.shown(frame - rerun, rerun)
        });
        self.played.reply(reply);
    }

    fn advance(&mut self) {
        self.played.ask("A".to_string());
        let before = self.session.game().steps;
        let reply = self.session.advance_frame().map(|reached| {
            assert_eq!(self.session.frame(), reached.frame);
            assert_eq!(self.session.game().steps - before, reached.rerun);
            self.shown(reached.from, reached.rerun)
        });
        self.played.reply(reply);
    }

    fn shown(&self, from: u32, rerun: u32) -> String {
        let (frame, settled, state) = (self.session.frame(), self.session.settled(), self.session.game().sum);
        format!("frame {frame} from {from} rerun {rerun} settled {settled} state {state}")
    }

    fn guess(&mut self) {
        if self.jobs.iter().flatten().count() == 64 {
            return;
        }
        let player = self.some_remote();
        let count = if self.random.one_in(20) { 1 + self.random.below(24) } else { 1 + self.random.below(4) };
        let next = self.session.confirmed(player).unwrap_or_default();
        let knows = self.random.one_in(2);
        let words: Vec<u32> = (0..count)
            .map(|ahead| if knows { self.word_to_come(player, next + ahead) } else { self.random.word() })
            .collect();
        let until = match self.random.below(10) {
            0 => self.random.below(40),
            1..=3 => self.session.settled() + self.random.below(27),
            _ => self.session.frame() + self.random.below(4),
        };
        self.played.ask(format!("G {player} {until} {}", list(&words)));
        let number = self.jobs.len();
        let reply = self.session.guess(player, &words, until).map(|job| match job {
            Some(job) => {
                let line = format!("job {number} rows {}", job.rows().len());
                self.jobs.push(Some(job));
                line
            }
            None => "kept".to_string(),
        });
        self.played.reply(reply);
    }

    /// Runs a job, most often one that is out, and grafts it.
    fn extend(&mut self) {
        let out: Vec<usize> = (0..self.jobs.len()).filter(|at| self.jobs[*at].is_some()).collect();
        let number = if out.is_empty() || self.random.one_in(10) {
            self.random.below(self.jobs.len() as u32 + 2) as usize
        } else {
            out[self.random.below(out.len() as u32) as usize]
        };
        self.played.ask(format!("B {number}"));
        let reply = match self.jobs.get_mut(number).and_then(Option::take) {
            Some(job) => self.session.graft(job.run(&mut Tally::default())),
            None => Err(Error::NoJob),
        };
        self.played.grafted += reply.unwrap_or_default();
        self.played.reply(reply.map(|added| format!("added {added}")));
    }

    fn claim(&mut self) {
        self.played.ask("C".to_string());
        match self.session.claim() {
            Ok(text) => self.played.replies.push_str(std::str::from_utf8(&text).expect("a claim is ASCII")),
            Err(why) => self.played.reply(Err(why)),
        }
    }
}

/// What the program writes of a script, and how it ends.
fn played_by(program: &Path, script: &str) -> (String, Option<i32>) {
    let mut command = Command::new(program);
    command.args(["play", "--game", "tally", "-"]).stdin(Stdio::piped()).stdout(Stdio::piped());
    let mut child = command.spawn().unwrap_or_else(|why| panic!("{}: {why}", program.display()));
    let mut stdin = child.stdin.take().expect("it is a pipe");
    stdin.write_all(script.as_bytes()).expect("the program reads the script");
    drop(stdin);
    let output = child.wait_with_output().expect("the program ends");
    (String::from_utf8(output.stdout).expect("replies are ASCII"), output.status.code())
}

/// The script up to the command of the first reply that differs, and both replies.
fn difference(played: &Played, by_program: &str) -> String {
    let mut said = String::new();
    let here: Vec<&str> = played.replies.lines().collect();
    let there: Vec<&str> = by_program.lines().collect();
    let at = here.iter().zip(&there).take_while(|(here, there)| here == there).count();
    let _ = writeln!(said, "line {} of the replies: {:?}, but rollduel {:?}", at + 1, here.get(at), there.get(at));
    let _ = write!(said, "{}", played.text);
    said
}

#[test]
fn the_program_answers_the_same() {
    let program = match env::var_os("FAZGROND_ROLLDUEL") {
        Some(named) => PathBuf::from(named),
        None => {
            let built = Path::new(env!("CARGO_MANIFEST_DIR")).join("../../../crates/rollduel/out/rollduel");
            if !built.is_file() {
                println!("skipped: there is no {}", built.display());
                return;
            }
            built
        }
    };
    let mut grafted = 0;
    let mut kinds = BTreeMap::new();
    for seed in 0..SCRIPTS {
        let played = play(seed);
        let (replies, status) = played_by(&program, &played.text);
        assert!(played.replies == replies, "script {seed}: {}", difference(&played, &replies));
        assert_eq!(status, Some(played.refused.into()), "script {seed}");
        grafted += played.grafted;
        for (kind, times) in played.kinds {
            *kinds.entry(kind).or_insert(0) += times;
        }
    }
    println!("{SCRIPTS} scripts, with {grafted} states of jobs: {kinds:?}");
    assert!(grafted > 5 * SCRIPTS as u32);
    for kind in ["added", "frame", "gone", "job", "kept", "ok", "repeated", "taken"] {
        assert!(kinds.contains_key(kind), "no reply is {kind}");
    }
    for code in [2, 4, 9, 11, 101, 102, 103, 104, 110, 112, 117, 120] {
        assert!(kinds.contains_key(&format!("refused {code}")), "no reply is refused {code}");
    }
}
