//! The line format (end of document 01's Cases): pairs of lines in, answers out.

use std::io::{self, BufRead, Read, Write};

use super::books::Row;

/// The longest line, its newline not counted.
pub const MOST_BYTES: usize = 4_096;

pub enum Pair {
    /// The command code, then the words of `args=`.
    Words(Vec<i64>),
    Unreadable,
    /// The input ended where a pair might have begun.
    End,
}

pub fn read_pair(input: &mut impl BufRead) -> io::Result<Pair> {
    let command = match read_line(input)? {
        Line::Whole(line) => numbers_after(b"cmd=", &line),
        Line::Broken => None,
        Line::End => return Ok(Pair::End),
    };
    let Some(mut words) = command.filter(|words| words.len() == 1) else {
        return Ok(Pair::Unreadable);
    };
    let arguments = match read_line(input)? {
        Line::Whole(line) => numbers_after(b"args=", &line),
        Line::Broken | Line::End => None,
    };
    let Some(arguments) = arguments else {
        return Ok(Pair::Unreadable);
    };
    words.extend(arguments);
    Ok(Pair::Words(words))
}

enum Line {
    Whole(Vec<u8>),
    /// Over-long, or cut off by the end of the input.
    Broken,
    End,
}

fn read_line(input: &mut impl BufRead) -> io::Result<Line> {
    let mut line = Vec::new();
    input.take(MOST_BYTES as u64 + 1).read_until(b'\n', &mut line)?;
    Ok(match line.pop() {
        None => Line::End,
        Some(b'\n') => Line::Whole(line),
        Some(_) => Line::Broken,
    })
}

/// The numbers after the key, one space between; None if any byte is out of place.
fn numbers_after(key: &[u8], line: &[u8]) -> Option<Vec<i64>> {
    let text = line.strip_prefix(key)?;
    if text.is_empty() {
        return Some(Vec::new());
    }
    text.split(|&byte| byte == b' ').map(number).collect()
}

/// A decimal i64 without leading zeros, `+` or `-0`.
fn number(text: &[u8]) -> Option<i64> {
    let digits = text.strip_prefix(b"-").unwrap_or(text);
    let well_written = match digits {
        b"0" => digits.len() == text.len(),
        [b'1'..=b'9', rest @ ..] => rest.iter().all(u8::is_ascii_digit),
        _ => false,
    };
    if !well_written {
        return None;
    }
    // What is left to refuse is a number outside i64.
    str::from_utf8(text).ok()?.parse().ok()
}

/// Writes the pair of lines that `read_pair` reads back.
pub fn write_pair(words: &[i64], out: &mut impl Write) -> io::Result<()> {
    let arguments: Vec<String> = words[1..].iter().map(i64::to_string).collect();
    write!(out, "cmd={}\nargs={}\n", words[0], arguments.join(" "))
}

pub struct Answer {
    /// 0, or the number of the refusal.
    pub code: u8,
    pub value: i64,
    pub rows: Vec<Row>,
}

impl Answer {
    pub fn refused(code: u8) -> Self {
        Answer { code, value: 0, rows: Vec::new() }
    }

    /// The answer to a pair that can't be read.
    pub fn unreadable() -> Self {
        Answer::refused(2)
    }

    pub fn write(&self, out: &mut impl Write) -> io::Result<()> {
        write!(out, "code={}\nvalue={}\nruns={}\n", self.code, self.value, self.rows.len())?;
        for row in &self.rows {
            writeln!(out, "run={}:{}", row.effect, row.value)?;
        }
        Ok(())
    }
}
