//! Generated commands through the crate and through the original engine: every answer and every run compared.
//!
//! usage: judged ORACLE SEED COMMANDS
//!
//! ORACLE is the binary that `oracle/build` names. Its generator writes the scripts, at the program's sizes, at the host's (one
//! command in ten) and at small ones where room runs out; its engine answers them. What a typed [`Command`] can say is sent as one,
//! anything else as words. At the small sizes the [`Record`]s after each command are compared with the engine's tables too.

use std::env;
use std::io::{self, Read, Write};
use std::process::{Command as Process, ExitCode, Stdio};
use std::thread;

use simmerthread::*;

/// Name, capacities, commands a script, how many of a thousand commands.
const BATCHES: [(&str, Room, usize, usize); 6] = [
    ("program", Room::PROGRAM, 300, 720),
    ("program, short log", Room { rows: 6, ..Room::PROGRAM }, 300, 90),
    ("small", Room { nodes: 8, links: 12, cells: 40, rows: 3 }, 60, 45),
    ("middle", Room { nodes: 24, links: 60, cells: 200, rows: 2 }, 150, 45),
    ("host", Room::HOST, 2_500, 80),
    ("host, short log", Room { rows: 150, ..Room::HOST }, 2_500, 20),
];

/// Tables of more nodes than this are not looked at, for the time that it takes.
const MOST_LOOKED_AT: usize = 24;

/// About how many commands are held in memory at a time.
const CHUNK: usize = 25_000;

/// What was compared.
#[derive(Default)]
struct Tally {
    commands: u64,
    typed: u64,
    accepted: u64,
    runs: u64,
    differences: u64,
}

fn main() -> io::Result<ExitCode> {
    let words: Vec<String> = env::args().skip(1).collect();
    let [oracle, seed, commands] = &words[..] else {
        return Ok(usage());
    };
    let (Ok(mut seed), Ok(commands)) = (seed.parse::<u64>(), commands.parse::<usize>()) else {
        return Ok(usage());
    };
    let mut all = Tally::default();
    for (name, room, each, share) in BATCHES {
        let mut batch = Tally::default();
        let mut scripts = (commands * share).div_ceil(1_000 * each);
        while scripts > 0 {
            let count = scripts.min(CHUNK.div_ceil(each));
            compare(oracle, seed, count, each, room, &mut batch)?;
            scripts -= count;
            seed += 1;
        }
        println!("judged: {name}: {batch}");
        all.commands += batch.commands;
        all.typed += batch.typed;
        all.accepted += batch.accepted;
        all.runs += batch.runs;
        all.differences += batch.differences;
    }
    println!("judged: all: {all}");
    let well = all.differences == 0 && 10 * all.accepted >= 6 * all.commands;
    Ok(if well { ExitCode::SUCCESS } else { ExitCode::FAILURE })
}

fn usage() -> ExitCode {
    eprintln!("usage: judged ORACLE SEED COMMANDS");
    ExitCode::from(2)
}

impl std::fmt::Display for Tally {
    fn fmt(&self, out: &mut std::fmt::Formatter<'_>) -> std::fmt::Result {
        let Tally { commands, typed, accepted, runs, differences } = self;
        write!(
            out,
            "{commands} commands ({typed} typed), {accepted} accepted, {runs} runs, {differences} differences"
        )
    }
}

/// Some scripts, generated and answered by the oracle, and answered by the crate.
fn compare(
    oracle: &str,
    seed: u64,
    scripts: usize,
    each: usize,
    room: Room,
    tally: &mut Tally,
) -> io::Result<()> {
    let flags = [
        ("--nodes", room.nodes),
        ("--links", room.links),
        ("--cells", room.cells),
        ("--rows", room.rows),
    ];
    let flags: Vec<String> =
        flags.iter().flat_map(|(name, number)| [name.to_string(), number.to_string()]).collect();
    let asked = ["--generate".to_string(), seed.to_string(), scripts.to_string(), each.to_string()];
    let written = output(oracle, &[&asked[..], &flags].concat(), Vec::new())?;
    let looks = room.nodes <= MOST_LOOKED_AT;
    let many = ["--many".to_string(), "--dump".to_string()];
    let many = if looks { &many[..] } else { &many[..1] };
    let answered = output(oracle, &[many, &flags].concat(), written.clone())?;
    let [written, answered] =
        [written, answered].map(|stream| split(&String::from_utf8_lossy(&stream)));
    if (written.len(), answered.len()) != (scripts, scripts) {
        return Err(io::Error::other("the oracle did not answer every script"));
    }
    let mut tables = Tables::new(room).expect("the capacities above are within the limits");
    for (script, answers) in written.iter().zip(answered) {
        tables.empty();
        play(&mut tables, script, &answers, looks, tally);
    }
    Ok(())
}

/// What the oracle writes, given an input.
fn output(oracle: &str, arguments: &[String], input: Vec<u8>) -> io::Result<Vec<u8>> {
    let mut child = Process::new(oracle)
        .args(arguments)
        .stdin(Stdio::piped())
        .stdout(Stdio::piped())
        .stderr(Stdio::null())
        .spawn()?;
    let mut into = child.stdin.take().expect("it was piped");
    let writer = thread::spawn(move || into.write_all(&input));
    let mut text = Vec::new();
    child.stdout.take().expect("it was piped").read_to_end(&mut text)?;
    writer.join().expect("a write doesn't panic")?;
    if child.wait()?.success() { Ok(text) } else { Err(io::Error::other("the oracle failed")) }
}

/// The scripts of a stream, or their answers. Behind each is a line `%`; or `%cut`, and the newline before it is no part of the script.
fn split(stream: &str) -> Vec<String> {
    let mut parts = Vec::new();
    let mut part = String::new();
    for line in stream.split_inclusive('\n') {
        match line {
            "%\n" => parts.push(std::mem::take(&mut part)),
            "%cut\n" => {
                part.pop();
                parts.push(std::mem::take(&mut part));
            }
            _ => part.push_str(line),
        }
    }
    parts
}

/// One script from empty tables, as far as its pairs can be read. A pair that can't be read is not for the crate; it ends a script.
fn play(tables: &mut Tables, script: &str, answers: &str, looks: bool, tally: &mut Tally) {
    let mut theirs = one_by_one(answers).into_iter();
    let mut unreadable = false;
    for words in Script::new(script.as_bytes()) {
        let Ok(words) = words else {
            unreadable = true;
            break;
        };
        tally.commands += 1;
        let answered = match Command::from_words(&words) {
            Some(command) => {
                tally.typed += 1;
                tally.differences += u64::from(command.words() != words);
                tables.command(&command)
            }
            None => tables.send(&words),
        };
        if let Ok(answer) = &answered {
            tally.accepted += 1;
            tally.runs += answer.runs().len() as u64;
        }
        let (mut ours, mut theirs) = (lines_of(answered), theirs.next().unwrap_or_default());
        if looks {
            (ours, theirs) = (ours + &seen(tables), without_versions(&theirs));
        }
        if ours != theirs {
            tally.differences += 1;
            eprintln!("judged: {words:?}\n  ours:   {ours:?}\n  theirs: {theirs:?}");
        }
    }
    // The oracle answers that pair, and nothing after it.
    tally.differences += u64::from(theirs.count() != usize::from(unreadable));
}

/// Each answer begins with a line `code=`.
fn one_by_one(answers: &str) -> Vec<String> {
    let mut each: Vec<String> = Vec::new();
    for line in answers.split_inclusive('\n') {
        match each.last_mut() {
            Some(answer) if !line.starts_with("code=") => answer.push_str(line),
            _ => each.push(line.to_string()),
        }
    }
    each
}

/// An answer as document 01's lines.
fn lines_of(answered: Result<Answer<'_>, Refusal>) -> String {
    match answered {
        Err(refusal) => format!("code={}\nvalue=0\nruns=0\n", refusal.number()),
        Ok(answer) => {
            let runs = answer.runs().map(|run| format!("run={}:{}\n", run.effect.0, run.value));
            format!("code=0\nvalue={}\nruns={}\n", answer.value, runs.len())
                + &runs.collect::<String>()
        }
    }
}

/// What the records say, in the lines of the oracle's dump.
fn seen(tables: &Tables) -> String {
    let list = |nodes: &mut dyn Iterator<Item = Node>| {
        nodes.map(|node| node.0.to_string()).collect::<Vec<_>>().join(",")
    };
    let word = |value: Option<i64>| value.map_or("none".to_string(), |value| value.to_string());
    let mut lines = format!("depth={}\nqueue={}\n", tables.depth(), list(&mut tables.queue()));
    for record in tables.records() {
        lines += &format!(
            "node={} flags={} value={} pending={} deps={}\n",
            record.node().0,
            record.flags().0,
            word(record.value()),
            word(record.pending()),
            list(&mut record.dependencies()),
        );
    }
    lines
}

/// An answer with its dump, but for what no record says: the cycle, the versions of links, the lists of subscribers.
fn without_versions(answer: &str) -> String {
    let mut lines = String::new();
    for line in answer.lines().filter(|line| !line.starts_with("cycle=")) {
        match line.split_once(" subs=").and_then(|(node, _)| node.split_once(" deps=")) {
            None => lines += line,
            Some((node, links)) => {
                let nodes: Vec<&str> =
                    links.split(',').map(|link| link.split(':').next().unwrap_or("")).collect();
                lines += &format!("{node} deps={}", nodes.join(","));
            }
        }
        lines.push('\n');
    }
    lines
}
