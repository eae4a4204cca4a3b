//! The command line.

use std::path::PathBuf;

use super::books::Room;
use super::generate::Wanted;
use super::session::Extras;

pub const USAGE: &str = "\
usage: oracle [OPTION..]                                   answer one script
       oracle --many [OPTION..]                            answer many scripts, a fork each
       oracle --split DIR                                  write each of many to DIR/NUMBER
       oracle --generate SEED SCRIPTS COMMANDS [OPTION..]  write many scripts
       oracle --help
options: --nodes N  --links N  --cells N  --rows N  capacities (256, 1024, 2048, 256)
         --dump                                     print the tables after each command
         --check                                    look for document 01's tables at rest";

pub enum Mode {
    One,
    Many,
    Split(PathBuf),
    Generate(Wanted),
    Help,
}

pub struct Options {
    pub mode: Mode,
    pub room: Room,
    pub extras: Extras,
}

impl Options {
    pub fn of(mut words: impl Iterator<Item = String>) -> Result<Options, String> {
        let (mut mode, mut room, mut extras) = (Mode::One, Room::PROGRAM, Extras::default());
        while let Some(word) = words.next() {
            match word.as_str() {
                "--help" => mode = Mode::Help,
                "--many" => mode = Mode::Many,
                "--split" => {
                    mode = Mode::Split(words.next().ok_or("a directory is missing")?.into())
                }
                "--generate" => mode = Mode::Generate(wanted(&mut words)?),
                "--dump" => extras.dump = true,
                "--check" => extras.check = true,
                "--nodes" => room.nodes = capacity(&mut words, 1, Room::MOST.nodes)?,
                "--links" => room.links = capacity(&mut words, 1, Room::MOST.links)?,
                "--cells" => room.cells = capacity(&mut words, 1, Room::MOST.cells)?,
                "--rows" => room.rows = capacity(&mut words, 0, Room::MOST.rows)?,
                _ => return Err(format!("unknown option {word}")),
            }
        }
        Ok(Options { mode, room, extras })
    }
}

fn wanted(words: &mut impl Iterator<Item = String>) -> Result<Wanted, String> {
    Ok(Wanted { seed: number(words)?, scripts: number(words)?, commands: number(words)? })
}

fn capacity(
    words: &mut impl Iterator<Item = String>,
    least: usize,
    most: usize,
) -> Result<usize, String> {
    let value = number(words)? as usize;
    match (least..=most).contains(&value) {
        true => Ok(value),
        false => Err(format!("capacity {value} is not in {least} to {most}")),
    }
}

fn number(words: &mut impl Iterator<Item = String>) -> Result<u64, String> {
    let word = words.next().ok_or("a number is missing")?;
    word.parse().map_err(|_| format!("{word} is not a number"))
}
