//! The two kinds of run, and what each asks of the port.

use std::fs::{self, File};
use std::io::{self, BufRead};
use std::process::ExitCode;

use super::change::{COLUMNS, Place, change};
use super::judge::{Room, judge};
use super::layout::{COMPUTED, COUNT, EFFECT, KIND, NODE, SCOPE, SIGNAL, Tables};
use super::make;
use super::probe::{Answer, Probe, write_block};
use super::random::Random;
use super::refusal::refusal;
use super::spoil::WAYS;
use super::tally::Tally;

/// Where the blocks of disagreements are written.
const FINDINGS: &str = "target/oracle/findings";
/// The owner word that means none.
const NO_OWNER: i64 = -1;
/// How often a table or a change is drawn anew because the wanted one cannot be had.
const TRIES: usize = 60;

struct Court {
    probe: Probe,
    random: Random,
    tally: Tally,
    seed: u64,
    /// The column to change next.
    column: usize,
}

impl Court {
    fn open(probe: &str, seed: u64) -> io::Result<Court> {
        let (probe, random, tally) = (Probe::start(probe)?, Random::new(seed), Tally::default());
        Ok(Court { probe, random, tally, seed, column: 0 })
    }

    /// The tables with one word changed, in the columns in turn, and the column's name.
    fn change_one(&mut self, tables: &Tables) -> (&'static str, Tables) {
        loop {
            let (name, place) = COLUMNS[self.column % COLUMNS.len()];
            self.column += 1;
            let mut other = tables.clone();
            if change(&mut other, place, &mut self.random) {
                return (name, other);
            }
        }
    }

    /// Puts tables to the port, with some command. It answers 1 exactly if the judge refuses them,
    /// else the number that the oracle's rules give; refused it touches nothing, and accepted it
    /// leaves tables that the judge lets pass.
    fn hear(&mut self, name: &'static str, tables: &Tables) -> io::Result<()> {
        let verdict = judge(tables);
        let (log, command) = self.some_command(tables);
        let answer = self.probe.ask(tables, &log, &command)?;
        let agreed = match verdict {
            Err(_) => answer.code == 1,
            Ok(()) => match refusal(tables, &log, &command) {
                Some(code) => answer.code == code,
                None => answer.code != 1,
            },
        };
        if !agreed || !holds(tables, &log, &answer) {
            self.record(name, tables, &log, &command, &answer)?;
        }
        self.tally.count(name, verdict, answer.code);
        Ok(())
    }

    /// Writes the block of a disagreement down.
    fn record(
        &mut self,
        name: &str,
        tables: &Tables,
        log: &[i64],
        command: &[i64],
        answer: &Answer,
    ) -> io::Result<()> {
        self.tally.disagreements += 1;
        let file = format!("{FINDINGS}/{}-{}.block", self.seed, self.tally.disagreements);
        fs::create_dir_all(FINDINGS)?;
        write_block(tables, log, command, &mut File::create(&file)?)?;
        println!("{name}: {file}: the port answers {}", answer.code);
        match judge(tables) {
            Err(rule) => println!("  the judge finds broken: {rule}"),
            Ok(()) => println!("  the rules give {:?}", refusal(tables, log, command)),
        }
        Ok(())
    }

    /// A log, perhaps with a word over, and a command, mostly on a node that it takes.
    fn some_command(&mut self, tables: &Tables) -> (Vec<i64>, Vec<i64>) {
        let random = &mut self.random;
        let rows = (tables.nodes.len() / NODE).saturating_sub(1) as u64;
        let count = tables.nodes.get(COUNT).map_or(0, |&count| count.min(rows)) as usize;
        let any = random.below(count + 1);
        let mut fitting = |kinds: [u64; 2]| {
            let fits = |n: &usize| kinds.contains(&tables.node(*n, KIND));
            let numbers: Vec<usize> = (0..count).filter(fits).collect();
            let number = random.any_of(&numbers).filter(|_| random.chance(90));
            number.unwrap_or(any) as i64
        };
        let signal = fitting([SIGNAL, SIGNAL]);
        let source = fitting([SIGNAL, COMPUTED]);
        let owning = fitting([EFFECT, SCOPE]);
        let owner = if random.chance(50) { NO_OWNER } else { owning };
        let rows = if random.chance(80) { 2 * count + 2 } else { random.below(5) };
        let log = (0..rows).map(|_| random.word() as i64).collect();
        let value = random.word() as i64;
        let command = match random.below(20) {
            0 => vec![1, value],
            1 | 2 => vec![2, 2, source],
            3 => vec![2, 3, random.below(2) as i64, 2, source, 1, value],
            4 => [vec![2], [8, 0, 3, 0].repeat(20), vec![1, 0]].concat(),
            5 | 6 => vec![3, owner, 3, 0, 2, source, 2, signal],
            7 => [vec![3, owner], [3, 0, 1, 1].repeat(12), vec![2, source]].concat(),
            8 => vec![3, owner, 2, source, 1],
            9 => vec![4, owner],
            10 | 11 => vec![5, signal, value],
            12 | 13 => vec![6, signal, value],
            14 | 15 => vec![7, source],
            16 | 17 => vec![8, owning],
            18 => vec![random.one_of(&[9, 10])],
            _ => vec![value, any as i64],
        };
        (log, command)
    }

    /// Capacities at their ends or anywhere, and half the time one length that is not in order.
    fn any_lengths(&mut self) -> Tables {
        let random = &mut self.random;
        let mut capacity = |most: usize| match random.below(24) {
            0 => 0,
            1 => 1,
            2 => most,
            3 => most + 1,
            _ => 1 + random.below(20),
        };
        let (nodes, slots, cells) = (capacity(1_024), capacity(8_192), capacity(8_192));
        let mut tables = Tables::blank(nodes, slots, cells);
        for word in tables.nodes.iter_mut().chain(&mut tables.links) {
            *word = random.word();
        }
        if random.chance(50) {
            let lengths = COLUMNS.iter().filter(|(_, place)| matches!(place, Place::Length(_)));
            let places: Vec<Place> = lengths.map(|&(_, place)| place).collect();
            let place = random.one_of(&places);
            change(&mut tables, place, random);
        }
        tables
    }

    fn close(self, what: &str) -> io::Result<ExitCode> {
        self.tally.print(what);
        let ended = self.probe.end()?;
        if !ended {
            println!("{what}: the port ended badly");
        }
        Ok(if ended && self.tally.disagreements == 0 {
            ExitCode::SUCCESS
        } else {
            ExitCode::FAILURE
        })
    }
}

/// Refused: value 0, runs 0, every lent word unchanged. Accepted: the tables are well formed again.
fn holds(tables: &Tables, log: &[i64], answer: &Answer) -> bool {
    match answer.code {
        0 => judge(&answer.tables).is_ok() && answer.log.len() == log.len(),
        _ => answer.value == 0 && answer.runs == 0 && answer.tables == *tables && answer.log == log,
    }
}

/// Runs scripts from empty tables, and changes one word of the tables again and again on the way.
pub fn changed(probe: &str, seed: u64, count: usize, room: [usize; 3]) -> io::Result<ExitCode> {
    let mut court = Court::open(probe, seed)?;
    let scripts = read_scripts(&mut io::stdin().lock())?;
    let steps: usize = scripts.iter().map(Vec::len).sum();
    let (mut step, mut tried) = (0, 0);
    for script in &scripts {
        let mut tables = Tables::empty(room[0], room[1], room[2]);
        for command in script {
            let log = vec![0; 2 * room[0]];
            let answer = court.probe.ask(&tables, &log, command)?;
            if answer.code == 1 || !holds(&tables, &log, &answer) {
                court.record("a table that a run reaches", &tables, &log, command, &answer)?;
            }
            tables = answer.tables;
            step += 1;
            while tried * steps < count * step {
                tried += 1;
                let (name, other) = court.change_one(&tables);
                court.hear(name, &other)?;
            }
        }
    }
    println!("{step} commands on the way, their tables well formed");
    court.close("one word changed")
}

/// The words of each readable command, script by script.
fn read_scripts(input: &mut impl BufRead) -> io::Result<Vec<Vec<Vec<i64>>>> {
    let mut scripts = vec![Vec::new()];
    let (mut code, mut readable) = (None, true);
    for line in input.split(b'\n') {
        let line = String::from_utf8_lossy(&line?).into_owned();
        let last = scripts.last_mut().expect("there is always one");
        if line.starts_with('%') {
            (code, readable) = (None, true);
            scripts.push(Vec::new());
        } else if let Some(text) = line.strip_prefix("cmd=").filter(|_| readable) {
            code = text.parse::<i64>().ok();
            readable = code.is_some();
        } else if let Some((text, code)) =
            line.strip_prefix("args=").zip(code.take()).filter(|_| readable)
        {
            let words =
                text.split(' ').filter(|word| !word.is_empty()).map(|word| word.parse().ok());
            match words.collect::<Option<Vec<i64>>>() {
                Some(words) => last.push([vec![code], words].concat()),
                None => readable = false,
            }
        } else {
            readable = false;
        }
    }
    Ok(scripts)
}

/// Makes tables: a third stay well formed, a third are spoilt, a third have one word changed. Of
/// the first two the judge is held to what was meant.
pub fn made(probe: &str, seed: u64, count: usize) -> io::Result<ExitCode> {
    let mut court = Court::open(probe, seed)?;
    for number in 0..count {
        let random = &mut court.random;
        let (name, tables) = match number % 3 {
            1 => spoilt(number / 3, random),
            _ => ("nothing changed", make::plan(random).lay(random)),
        };
        let verdict = judge(&tables);
        if verdict.is_err() != (number % 3 == 1) {
            court.tally.disagreements += 1;
            println!("{name}: the judge finds broken: {}", verdict.err().unwrap_or("nothing"));
        }
        let (name, tables) =
            if number % 3 == 2 { court.change_one(&tables) } else { (name, tables) };
        court.hear(name, &tables)?;
    }
    court.close("made")
}

fn spoilt(number: usize, random: &mut Random) -> (&'static str, Tables) {
    for way in number.. {
        let (name, spoil) = WAYS[way % WAYS.len()];
        for _ in 0..TRIES {
            let mut plan = make::plan(random);
            if spoil(&mut plan, random) {
                return (name, plan.lay(random));
            }
        }
    }
    unreachable!("some way can always be had")
}

/// Empties tables with anything in them, their lengths at or near what carries capacities. Where they
/// carry none the port answers 1 and touches nothing; else 0, and every word is as at the start.
pub fn emptied(probe: &str, seed: u64, count: usize) -> io::Result<ExitCode> {
    let mut court = Court::open(&format!("{probe} empty"), seed)?;
    for _ in 0..count {
        let tables = court.any_lengths();
        let answer = court.probe.ask(&tables, &[], &[9])?;
        let (code, after, verdict) = match Room::of(&tables) {
            Ok(Room { nodes, slots, cells }) => (0, Tables::empty(nodes, slots, cells), Ok(())),
            Err(rule) => (1, tables.clone(), Err(rule)),
        };
        if answer.code != code || answer.tables != after {
            court.record("emptied", &tables, &[], &[9], &answer)?;
        }
        court.tally.count("emptied", verdict, answer.code);
    }
    court.close("emptied")
}
