//! The driver: document 01's line format in front of the unchanged engine.
//! It is a module of the engine's crate, so that it sees the crate's private parts.
#![warn(dead_code)]

mod at_rest;
pub mod books;
mod child;
mod command;
mod dump;
pub mod formula;
mod generate;
mod many;
mod options;
mod peek;
mod perform;
pub mod refusals;
mod script;
mod session;
mod view;

use std::io::{self, BufWriter};
use std::process::ExitCode;

use options::{Mode, Options, USAGE};
use session::Session;

pub fn main() -> ExitCode {
    let options = match Options::of(std::env::args().skip(1)) {
        Ok(options) => options,
        Err(message) => {
            eprintln!("oracle: {message}\n{USAGE}");
            return ExitCode::from(2);
        }
    };
    match perform(options) {
        Ok(true) => ExitCode::SUCCESS,
        Ok(false) => ExitCode::FAILURE,
        Err(error) => {
            eprintln!("oracle: {error}");
            ExitCode::FAILURE
        }
    }
}

/// True if nothing ended abnormally.
fn perform(options: Options) -> io::Result<bool> {
    let Options { mode, room, extras } = options;
    let mut input = io::stdin().lock();
    let mut out = BufWriter::new(io::stdout().lock());
    match mode {
        Mode::Help => {
            println!("{USAGE}");
            Ok(true)
        }
        Mode::One => Session::new(room).run(extras, &mut input, &mut out).map(|()| true),
        Mode::Many => many::run(room, extras, &mut input, &mut out),
        Mode::Split(directory) => many::split(&directory, &mut input),
        Mode::Generate(wanted) => generate::run(wanted, room, &mut out),
    }
}
