//! One run from empty tables: judge a command by the books, perform it, enter it in the books.
//! The engine's state is global, so a process holds one session in its life.

use std::io::{self, BufRead, Write};

use super::at_rest;
use super::books::{Books, Room};
use super::dump;
use super::perform::Engine;
use super::refusals::judge;
use super::script::{Answer, Pair, read_pair};
use super::view::View;

pub struct Session {
    pub books: Books,
    pub engine: Engine,
}

/// What to do after each command, besides answering it.
#[derive(Clone, Copy, Default)]
pub struct Extras {
    pub dump: bool,
    pub check: bool,
}

impl Session {
    pub fn new(room: Room) -> Self {
        Session { books: Books::new(room), engine: Engine::default() }
    }

    pub fn answer(&mut self, words: &[i64]) -> Answer {
        let command = match judge(&self.books, words) {
            Ok(command) => command,
            Err(code) => return Answer::refused(code),
        };
        let (value, rows) = self.engine.perform(&command);
        // Refusal 9 promises this; a longer log would mean that document 01 is wrong.
        assert!(rows.len() <= self.books.room.rows, "more runs than log rows");
        self.books.enter(&command, &rows);
        Answer { code: 0, value, rows }
    }

    /// Answers a script pair by pair, each answer flushed before the next pair is read.
    pub fn run(
        &mut self,
        extras: Extras,
        input: &mut impl BufRead,
        out: &mut impl Write,
    ) -> io::Result<()> {
        loop {
            match read_pair(input)? {
                Pair::Words(words) => self.answer(&words).write(out)?,
                Pair::Unreadable => {
                    Answer::unreadable().write(out)?;
                    return out.flush();
                }
                Pair::End => return Ok(()),
            }
            self.after(extras, out)?;
            out.flush()?;
        }
    }

    fn after(&self, extras: Extras, out: &mut impl Write) -> io::Result<()> {
        if !extras.dump && !extras.check {
            return Ok(());
        }
        let view = View::of(&self.engine);
        if extras.check {
            at_rest::check(&self.books, &view);
        }
        if extras.dump {
            dump::write(&view, out)?;
        }
        Ok(())
    }
}
