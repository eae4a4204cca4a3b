//! Scripts: document 01's pairs of lines.

use std::error::Error;
use std::fmt;
use std::io::{self, BufRead, Read};

/// The longest line of a script, its newline not counted.
const MOST_BYTES: usize = 4_096;

/// The commands of a script, as words, each read as soon as its two lines are there. It ends with the input, or behind the first line
/// that cannot be read, since what follows can no longer be trusted to be in step.
///
/// ```
/// use simmerthread::Script;
/// let mut script = Script::new("cmd=3\nargs=-1 2 0\ncmd=9\nargs=\ncmd=07\n".as_bytes());
/// assert_eq!(script.next().unwrap().unwrap(), [3, -1, 2, 0]);
/// assert_eq!(script.next().unwrap().unwrap(), [9]);
/// assert_eq!(script.next().unwrap().unwrap_err().to_string(), "line 5: `07` is not a number as it must be written");
/// assert!(script.next().is_none());
/// ```
#[derive(Debug)]
pub struct Script<R> {
    input: R,
    lines: u64,
    over: bool,
}

/// Why a script cannot be read on.
#[derive(Debug)]
pub enum Unreadable {
    /// A line that is not as document 01 has it.
    Line {
        /// Its number, from 1.
        line: u64,
        /// What is wrong.
        fault: String,
    },
    /// The system's error.
    Input(io::Error),
}

impl fmt::Display for Unreadable {
    fn fmt(&self, out: &mut fmt::Formatter<'_>) -> fmt::Result {
        match self {
            Unreadable::Line { line, fault } => write!(out, "line {line}: {fault}"),
            Unreadable::Input(error) => write!(out, "read: {error}"),
        }
    }
}

impl Error for Unreadable {}

impl<R: BufRead> Script<R> {
    /// The script on this input.
    pub fn new(input: R) -> Script<R> {
        Script { input, lines: 0, over: false }
    }

    /// The next line without its newline; none at the end of the input.
    fn line(&mut self) -> Result<Option<Vec<u8>>, Unreadable> {
        let mut line = Vec::new();
        let most = (MOST_BYTES + 1) as u64;
        (&mut self.input).take(most).read_until(b'\n', &mut line).map_err(Unreadable::Input)?;
        self.lines += 1;
        match line.pop() {
            None => Ok(None),
            Some(b'\n') => Ok(Some(line)),
            Some(_) if line.len() == MOST_BYTES => {
                self.fault(format!("it is longer than {MOST_BYTES} bytes"))
            }
            Some(_) => self.fault("the input ends in it, before a newline".to_string()),
        }
    }

    fn fault<T>(&self, fault: String) -> Result<T, Unreadable> {
        Err(Unreadable::Line { line: self.lines, fault })
    }

    /// What stands behind the key.
    fn behind<'a>(&self, key: &str, line: &'a [u8]) -> Result<&'a [u8], Unreadable> {
        match line.strip_prefix(key.as_bytes()) {
            Some(rest) => Ok(rest),
            None if line.is_empty() => {
                self.fault(format!("it must begin with `{key}`, and is empty"))
            }
            None => self.fault(format!("it must begin with `{key}`, and is `{}`", shown(line))),
        }
    }

    /// A number that, written anew, is the same bytes.
    fn number(&self, bytes: &[u8]) -> Result<i64, Unreadable> {
        let number = str::from_utf8(bytes).ok().and_then(|text| text.parse::<i64>().ok());
        match number.filter(|number| number.to_string().as_bytes() == bytes) {
            Some(number) => Ok(number),
            None if bytes.is_empty() => {
                self.fault("a number is missing, or a space too much".to_string())
            }
            None => self.fault(format!("`{}` is not a number as it must be written", shown(bytes))),
        }
    }

    fn pair(&mut self) -> Result<Option<Vec<i64>>, Unreadable> {
        let Some(first) = self.line()? else {
            return Ok(None);
        };
        let mut words = vec![self.number(self.behind("cmd=", &first)?)?];
        let Some(second) = self.line()? else {
            return self.fault("the input ends before it, where `args=` must stand".to_string());
        };
        let rest = self.behind("args=", &second)?;
        if !rest.is_empty() {
            for piece in rest.split(|&byte| byte == b' ') {
                words.push(self.number(piece)?);
            }
        }
        Ok(Some(words))
    }
}

impl<R: BufRead> Iterator for Script<R> {
    type Item = Result<Vec<i64>, Unreadable>;

    fn next(&mut self) -> Option<Self::Item> {
        if self.over {
            return None;
        }
        let pair = self.pair().transpose();
        self.over = !matches!(pair, Some(Ok(_)));
        pair
    }
}

/// Some bytes for a person: what is not to be printed is escaped, and a long end left out.
fn shown(bytes: &[u8]) -> String {
    const MOST: usize = 40;
    let text = bytes[..bytes.len().min(MOST)].escape_ascii().to_string();
    if bytes.len() > MOST { text + ".." } else { text }
}
