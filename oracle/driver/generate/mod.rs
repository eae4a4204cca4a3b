//! The generator of scripts. Each is written in a child of its own, where the live engine tells
//! what was accepted and who is gone. Same seed and flags, same scripts.

mod counts;
mod draw;
mod observe;
mod profile;
mod random;
mod shapes;
mod wrong;

use std::collections::VecDeque;
use std::io::{self, Write};

use super::books::{Books, Entry, Room};
use super::child;
use super::many::write_script;
use super::refusals::judge;
use super::script::write_pair;
use super::session::Session;
use counts::{Counts, NAMES};
use observe::Observer;
use profile::{PROFILES, Profile};
use random::Random;

pub struct Wanted {
    pub seed: u64,
    pub scripts: u64,
    /// How many commands a script, the ends that close its batches not counted.
    pub commands: u64,
}

/// In a hundred commands, about how many are meant to be refused.
const WRONG: usize = 20;
/// In a hundred commands, about how many begin a plan.
const PLANNED: usize = 3;
/// How often a command is drawn anew because it would be refused.
const TRIES: usize = 40;

/// Writes the scripts to the output and the counts to standard error.
pub fn run(wanted: Wanted, room: Room, out: &mut impl Write) -> io::Result<bool> {
    let mut seeds = Random::new(wanted.seed);
    let mut counts = Counts::new();
    for number in 1..=wanted.scripts {
        let seed = seeds.next();
        let (written, well) = child::run(|pipe| {
            let mut writer = Writer::new(seed, room, wanted.commands as usize);
            writer.write();
            writer.hand_over(pipe)
        })?;
        if !well {
            eprintln!("oracle: script {number} ended abnormally while it was made");
            return Ok(false);
        }
        let (theirs, script) = take_over(&written);
        counts.join(&theirs);
        write_script(script, out)?;
    }
    out.flush()?;
    for (name, count) in NAMES.iter().zip(counts.0) {
        eprintln!("{name}={count}");
    }
    Ok(true)
}

/// One script in the making.
pub struct Writer {
    session: Session,
    random: Random,
    profile: Profile,
    planned: VecDeque<Vec<i64>>,
    /// How many commands at the start do nothing but make nodes.
    growing: usize,
    commands_left: usize,
    observer: Observer,
    script: Vec<u8>,
}

impl Writer {
    fn new(seed: u64, room: Room, commands: usize) -> Self {
        let mut random = Random::new(seed);
        let profile = random.one_of(&PROFILES);
        let session = Session::new(room);
        let observer = Observer::new(&session.engine);
        let planned = VecDeque::from(vec![vec![1, 0], vec![1, 1]]);
        let grows = room.nodes > Room::PROGRAM.nodes || random.chance(30);
        let most = (commands / 3).min(room.nodes / 4 * 3);
        let growing = if grows { random.below(most + 1) } else { 0 };
        let (commands_left, script) = (commands, Vec::new());
        Writer { session, random, profile, planned, growing, commands_left, observer, script }
    }

    fn write(&mut self) {
        self.observer.counts.add("scripts");
        while self.commands_left > 0 {
            self.commands_left -= 1;
            let words = self.next();
            self.give(&words);
        }
        while self.books().depth > 0 && judge(self.books(), &[10]).is_ok() {
            self.give(&[10]);
        }
        if self.random.chance(60) {
            self.observer.counts.add("malformed_pairs");
            let pair = self.malformed();
            self.script.extend(pair);
        }
    }

    fn next(&mut self) -> Vec<i64> {
        let growing = self.growing > 0;
        self.growing = self.growing.saturating_sub(1);
        if self.planned.is_empty() && !growing && self.random.chance(PLANNED) {
            self.planned = self.plan().into();
        }
        if let Some(words) = self.planned.pop_front() {
            return words;
        }
        if !growing && self.random.chance(WRONG) {
            return self.wrong();
        }
        for _ in 0..TRIES {
            let words = if growing { self.draw_node() } else { self.draw() };
            if judge(self.books(), &words).is_ok() {
                return words;
            }
        }
        self.wrong()
    }

    /// Writes the command down and lets the engine answer it.
    fn give(&mut self, words: &[i64]) {
        write_pair(words, &mut self.script).expect("memory takes every write");
        let answer = self.session.answer(words);
        self.observer.note(words, &answer, &self.session);
        if answer.code != 0 {
            self.planned.clear();
        }
    }

    fn books(&self) -> &Books {
        &self.session.books
    }

    fn entry(&self, number: i64) -> &Entry {
        &self.books().nodes[number as usize]
    }

    /// The numbers of the nodes that fit.
    fn numbers(&self, fits: impl Fn(&Entry) -> bool) -> Vec<i64> {
        let nodes = self.books().nodes.iter().enumerate();
        nodes.filter(|(_, entry)| fits(entry)).map(|(number, _)| number as i64).collect()
    }

    /// The counts, eight bytes each, then the script.
    fn hand_over(&self, pipe: &mut impl Write) -> io::Result<()> {
        for count in self.observer.counts.0 {
            pipe.write_all(&count.to_le_bytes())?;
        }
        pipe.write_all(&self.script)
    }
}

/// Reads back what `hand_over` wrote.
fn take_over(written: &[u8]) -> (Counts, &[u8]) {
    let mut counts = Counts::new();
    let (head, script) = written.split_at(8 * NAMES.len());
    let (numbers, _) = head.as_chunks();
    for (count, bytes) in counts.0.iter_mut().zip(numbers) {
        *count = u64::from_le_bytes(*bytes);
    }
    (counts, script)
}
