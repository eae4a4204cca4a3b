//! The port behind its program `probe`: tables, a log and a command in, the answer and every word
//! after it out.

use std::io::{self, BufRead, BufReader, BufWriter, Write};
use std::process::{Child, ChildStdin, ChildStdout, Command, Stdio};
use std::str::FromStr;

use super::layout::Tables;

pub struct Probe {
    child: Child,
    to: BufWriter<ChildStdin>,
    from: BufReader<ChildStdout>,
}

pub struct Answer {
    pub code: u64,
    pub value: i64,
    pub runs: u64,
    pub tables: Tables,
    pub log: Vec<i64>,
}

impl Probe {
    /// The program and its arguments, as words of one string.
    pub fn start(words: &str) -> io::Result<Probe> {
        let mut words = words.split_whitespace();
        let program = words.next().ok_or(io::Error::other("no program named"))?;
        let mut child = Command::new(program)
            .args(words)
            .stdin(Stdio::piped())
            .stdout(Stdio::piped())
            .spawn()?;
        let to = BufWriter::with_capacity(1 << 16, child.stdin.take().expect("a pipe"));
        let from = BufReader::with_capacity(1 << 16, child.stdout.take().expect("a pipe"));
        Ok(Probe { child, to, from })
    }

    pub fn ask(&mut self, tables: &Tables, log: &[i64], command: &[i64]) -> io::Result<Answer> {
        write_block(tables, log, command, &mut self.to)?;
        self.to.flush()?;
        Ok(Answer {
            code: self.one("code=")?,
            value: self.one("value=")?,
            runs: self.one("runs=")?,
            tables: Tables {
                nodes: self.words("nodes=")?,
                links: self.words("links=")?,
                values: self.words("values=")?,
                cells: self.words("cells=")?,
            },
            log: self.words("log=")?,
        })
    }

    /// Ends the input and says if the program ended well.
    pub fn end(mut self) -> io::Result<bool> {
        self.to.flush()?;
        drop(self.to);
        Ok(self.child.wait()?.success())
    }

    fn words<T: FromStr>(&mut self, key: &str) -> io::Result<Vec<T>> {
        let mut line = String::new();
        self.from.read_line(&mut line)?;
        let text = line.strip_prefix(key).and_then(|text| text.strip_suffix('\n'));
        let words =
            text.map(|text| text.split_whitespace().map(|word| word.parse().ok()).collect());
        words.flatten().ok_or_else(|| io::Error::other(format!("{key} awaited, not {line:.60}")))
    }

    fn one<T: FromStr>(&mut self, key: &str) -> io::Result<T> {
        self.words(key)?.pop().ok_or_else(|| io::Error::other(format!("no word after {key}")))
    }
}

/// The lengths, then the words, a line a table.
pub fn write_block(
    tables: &Tables,
    log: &[i64],
    command: &[i64],
    out: &mut impl Write,
) -> io::Result<()> {
    let Tables { nodes, links, values, cells } = tables;
    let lengths = [nodes.len(), links.len(), values.len(), cells.len(), log.len(), command.len()];
    write_line(&lengths, out)?;
    write_line(nodes, out)?;
    write_line(links, out)?;
    for words in [values, cells, log, command] {
        write_line(words, out)?;
    }
    Ok(())
}

fn write_line<T: ToString>(words: &[T], out: &mut impl Write) -> io::Result<()> {
    let texts: Vec<String> = words.iter().map(T::to_string).collect();
    writeln!(out, "{}", texts.join(" "))
}
