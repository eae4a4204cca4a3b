//! A script for people: what it does, step by step, or a picture of what it leaves.
//!
//! usage: show steps|graph [--nodes N] [--links N] [--cells N] [--rows N] [NODE=NAME ..] < SCRIPT
//!
//! The capacities are those of the program `simmer` where no others are given. Names stand in place of numbers. The exit status is 0
//! if all of the script could be read, else 1; what stood before the line that could not be read has been played.

mod cause;
mod dot;
mod names;
mod steps;

use std::env;
use std::io;
use std::process::ExitCode;

use names::Names;
use simmerthread::{Room, Script, Tables};

fn main() -> ExitCode {
    let words: Vec<String> = env::args().skip(1).collect();
    let what = words.first().map_or("", String::as_str);
    let Some((room, names)) = words.get(1..).and_then(options) else {
        return usage(what);
    };
    let Some(tables) = Tables::new(room) else {
        eprintln!(
            "{what}: the most are 1,024 nodes, 8,192 links, 8,192 cells and 1,024 rows, the least 1 of each"
        );
        return ExitCode::from(2);
    };
    let script = Script::new(io::stdin().lock());
    let done = match what {
        "steps" => steps::show(tables, script, &names),
        "graph" => dot::show(tables, script, &names),
        _ => return usage(what),
    };
    match done {
        Ok(true) => ExitCode::SUCCESS,
        Ok(false) => ExitCode::FAILURE,
        // Whoever read it has had enough.
        Err(error) if error.kind() == io::ErrorKind::BrokenPipe => ExitCode::SUCCESS,
        Err(error) => {
            eprintln!("{what}: write: {error}");
            ExitCode::FAILURE
        }
    }
}

fn usage(what: &str) -> ExitCode {
    let program = match what {
        "steps" => "./steps",
        "graph" => "./graph FILE.svg",
        _ => "show steps|graph",
    };
    eprintln!(
        "usage: {program} [--nodes N] [--links N] [--cells N] [--rows N] [NODE=NAME ..] < SCRIPT"
    );
    ExitCode::from(2)
}

/// Capacities and names.
fn options(words: &[String]) -> Option<(Room, Names)> {
    let mut room = Room::PROGRAM;
    let mut names = Names::default();
    let mut words = words.iter();
    while let Some(word) = words.next() {
        let capacity = match word.as_str() {
            "--nodes" => &mut room.nodes,
            "--links" => &mut room.links,
            "--cells" => &mut room.cells,
            "--rows" => &mut room.rows,
            _ => {
                let (node, name) = word.split_once('=')?;
                if name.is_empty() || name.contains(char::is_control) {
                    return None;
                }
                names.add(node.parse().ok()?, name);
                continue;
            }
        };
        *capacity = words.next()?.parse().ok()?;
    }
    Some((room, names))
}
