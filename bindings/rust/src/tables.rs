//! The tables, and the calls of the library on them.

use crate::record::{node, size};
use crate::rows::*;
use crate::{Answer, Answers, Command, Formula, Kind, Node, Record, Refusal};

mod library {
    //! `include/simmerthread.h`: a slice is a pointer and a length in words.
    #[rustfmt::skip]
    unsafe extern "C" {
        pub safe fn simmer_node_words(nodes: u64) -> u64;
        pub safe fn simmer_value_words(nodes: u64) -> u64;
        pub safe fn simmer_link_words(links: u64) -> u64;
        pub safe fn simmer_cell_words(cells: u64) -> u64;
        pub safe fn simmer_log_words(rows: u64) -> u64;
        pub fn simmer_empty(
            nodes: *mut u64, nodes_len: usize, links: *mut u64, links_len: usize,
            values: *mut i64, values_len: usize, cells: *mut i64, cells_len: usize,
        ) -> u64;
        pub fn simmer_command(
            nodes: *mut u64, nodes_len: usize, links: *mut u64, links_len: usize,
            values: *mut i64, values_len: usize, cells: *mut i64, cells_len: usize,
            log: *mut i64, log_len: usize, words: *const i64, words_len: usize,
            reply: *mut i64, reply_len: usize,
        ) -> u64;
        pub fn simmer_commands(
            nodes: *mut u64, nodes_len: usize, links: *mut u64, links_len: usize,
            values: *mut i64, values_len: usize, cells: *mut i64, cells_len: usize,
            rows: *mut i64, rows_len: usize, list: *const i64, list_len: usize,
            answers: *mut i64, answers_len: usize, reply: *mut i64, reply_len: usize,
        ) -> u64;
    }
}

/// Words of a reply, spare ones among them: code, value, number of runs; or of many commands why it stopped, words used, commands
/// done, rows written.
const REPLY: usize = 8;

/// Words of one of many answers: code, value, number of runs.
const ANSWER: usize = 3;

/// How much the tables hold. Nothing grows: what is full is [`Refusal::Room`] or [`Refusal::Rows`].
#[derive(Clone, Copy, Debug, PartialEq, Eq, Hash)]
pub struct Room {
    /// Nodes ever made, 1 to 1,024. Numbers are never reused.
    pub nodes: usize,
    /// Link slots, 1 to 8,192. Each read cell of a computed or live effect takes two, each live owned node one.
    pub links: usize,
    /// Formula cells ever written, 1 to 8,192.
    pub cells: usize,
    /// Rows of the log, 1 to 1,024. A flush wants as many as effects are live; many commands in one call want as many more as they
    /// write, or [`Tables::commands`] stops early.
    pub rows: usize,
}

impl Room {
    /// The most there is: the payout host's.
    pub const HOST: Room = Room { nodes: 1_024, links: 8_192, cells: 8_192, rows: 1_024 };
    /// What the program `simmer` has.
    pub const PROGRAM: Room = Room { nodes: 256, links: 1_024, cells: 2_048, rows: 256 };
}

/// Words for `count` records; none if the library says that it is no capacity.
fn words<T: Default + Clone>(
    words_for: extern "C" fn(u64) -> u64,
    count: usize,
) -> Option<Box<[T]>> {
    match words_for(u64::try_from(count).ok()?) {
        0 => None,
        words => Some(vec![T::default(); usize::try_from(words).ok()?].into()),
    }
}

/// The engine's tables and log. They are made once and never grow; a clone is a second engine in the same state.
///
/// ```
/// use simmerthread::{Refusal, Room, Tables, sum};
/// let mut tables = Tables::new(Room::PROGRAM).unwrap();
/// let sale = tables.signal(5)?;
/// let total = tables.computed(sum(sale, 1))?;
/// assert_eq!(tables.read(total)?, 6);
/// tables.set(sale, 7)?;
/// assert_eq!(tables.read(total)?, 8);
///
/// // Refused: a computed isn't set. Nothing has changed.
/// assert_eq!(tables.set(total, 0), Err(Refusal::Node));
/// assert_eq!(tables.read(total)?, 8);
/// # Ok::<(), Refusal>(())
/// ```
#[derive(Clone, Debug)]
pub struct Tables {
    pub(crate) nodes: Box<[u64]>,
    pub(crate) links: Box<[u64]>,
    pub(crate) values: Box<[i64]>,
    pub(crate) cells: Box<[i64]>,
    log: Box<[i64]>,
    /// The words of the command being sent, kept for their room.
    words: Vec<i64>,
    /// Those of many commands, each behind its number of words, and their answers.
    list: Vec<i64>,
    answers: Vec<i64>,
}

impl Tables {
    /// Empty tables; none if a capacity is outside its limits.
    ///
    /// ```
    /// use simmerthread::{Room, Tables};
    /// assert!(Tables::new(Room::HOST).is_some());
    /// assert!(Tables::new(Room { nodes: 1_025, ..Room::HOST }).is_none());
    /// ```
    pub fn new(room: Room) -> Option<Tables> {
        let mut tables = Tables {
            nodes: words(library::simmer_node_words, room.nodes)?,
            links: words(library::simmer_link_words, room.links)?,
            values: words(library::simmer_value_words, room.nodes)?,
            cells: words(library::simmer_cell_words, room.cells)?,
            log: words(library::simmer_log_words, room.rows)?,
            words: Vec::new(),
            list: Vec::new(),
            answers: Vec::new(),
        };
        tables.empty();
        Some(tables)
    }

    /// Forgets everything: no nodes, no open batch.
    pub fn empty(&mut self) {
        // SAFETY: each pointer is that of a boxed slice with the length beside it, the four are distinct, and `&mut self` keeps
        // everybody else away during the call.
        let code = unsafe {
            library::simmer_empty(
                self.nodes.as_mut_ptr(),
                self.nodes.len(),
                self.links.as_mut_ptr(),
                self.links.len(),
                self.values.as_mut_ptr(),
                self.values.len(),
                self.cells.as_mut_ptr(),
                self.cells.len(),
            )
        };
        assert_eq!(code, 0, "the lengths are those that the library named");
    }

    /// Sends a command as document 01's words, any at all.
    ///
    /// ```
    /// use simmerthread::{Refusal, Room, Tables};
    /// let mut tables = Tables::new(Room::PROGRAM).unwrap();
    /// assert_eq!(tables.send(&[1, 5])?.value, 0);
    /// assert_eq!(tables.send(&[77]), Err(Refusal::Command));
    /// # Ok::<(), Refusal>(())
    /// ```
    pub fn send(&mut self, words: &[i64]) -> Result<Answer<'_>, Refusal> {
        let (value, runs) = self.call(words)?;
        Ok(self.answer(value, runs))
    }

    /// Sends a command.
    pub fn command(&mut self, command: &Command) -> Result<Answer<'_>, Refusal> {
        // The list is taken out meanwhile, since the call borrows all of the tables.
        let mut words = std::mem::take(&mut self.words);
        command.write_words(&mut words);
        let called = self.call(&words);
        self.words = words;
        let (value, runs) = called?;
        Ok(self.answer(value, runs))
    }

    /// Sends many commands, one after another; the tables are tested once for all of them. Each is answered as it would have been
    /// alone, refusals too, until the list is over or the next command wants more rows than the log has left. Then take the runs and
    /// send the others. Where none was done, the whole log is too short for the first of them: alone it would be [`Refusal::Rows`].
    ///
    /// A flush wants a row for each live effect, however few it then writes: a log of no more rows than that stops a call after the first
    /// command that writes one. [`Room::rows`] is at most 1,024.
    ///
    /// ```
    /// use simmerthread::{Command, Node, Refusal, Room, Tables, read};
    /// let mut tables = Tables::new(Room { rows: 2, ..Room::PROGRAM }).unwrap();
    /// let (sale, payout) = (Node(0), Node(1));
    /// let commands = [
    ///     Command::Signal { value: 5 },
    ///     Command::Effect { owner: None, formula: read(sale) },
    ///     Command::Dispose { node: sale },
    ///     Command::Set { node: sale, value: 7 },
    ///     Command::Set { node: sale, value: 8 },
    /// ];
    ///
    /// // Two rows are written, and the last command wants a third.
    /// let answers = tables.commands(&commands);
    /// assert_eq!(answers.done(), 4);
    /// let answers: Vec<_> = answers.iter().collect();
    /// assert_eq!(answers[1].unwrap().node(), payout);
    /// assert_eq!(answers[2], Err(Refusal::Node));
    /// assert_eq!(answers[3].unwrap().runs().next().unwrap().value, 7);
    ///
    /// // With the log to itself again it is done.
    /// let answers = tables.commands(&commands[4..]);
    /// assert_eq!(answers.iter().next().unwrap()?.runs().next().unwrap().value, 8);
    /// # Ok::<(), Refusal>(())
    /// ```
    pub fn commands(&mut self, commands: &[Command]) -> Answers<'_> {
        self.list.clear();
        for command in commands {
            command.write_words(&mut self.words);
            let length = i64::try_from(self.words.len()).expect("a list is shorter than that");
            self.list.push(length);
            self.list.extend(&self.words);
        }
        self.answers.clear();
        self.answers.resize(commands.len() * ANSWER, 0);
        let mut reply = [0; REPLY];
        // SAFETY: as in `call`; the list and the answers are other words of `self`, and distinct.
        unsafe {
            library::simmer_commands(
                self.nodes.as_mut_ptr(),
                self.nodes.len(),
                self.links.as_mut_ptr(),
                self.links.len(),
                self.values.as_mut_ptr(),
                self.values.len(),
                self.cells.as_mut_ptr(),
                self.cells.len(),
                self.log.as_mut_ptr(),
                self.log.len(),
                self.list.as_ptr(),
                self.list.len(),
                self.answers.as_mut_ptr(),
                self.answers.len(),
                reply.as_mut_ptr(),
                reply.len(),
            )
        };
        let [_, _, done, rows, ..] = reply;
        let counted = |n: i64| usize::try_from(n).expect("commands and rows are counted from 0");
        Answers {
            answers: &self.answers.as_chunks().0[..counted(done)],
            rows: &self.log.as_chunks().0[..counted(rows)],
        }
    }

    /// The value returned, and how many rows of the log were written.
    fn call(&mut self, words: &[i64]) -> Result<(i64, usize), Refusal> {
        let mut reply = [0; REPLY];
        // SAFETY: as in `empty`; the words and the reply are slices too, and no part of the tables: `words` is borrowed beside
        // `&mut self`, the reply is a local.
        let code = unsafe {
            library::simmer_command(
                self.nodes.as_mut_ptr(),
                self.nodes.len(),
                self.links.as_mut_ptr(),
                self.links.len(),
                self.values.as_mut_ptr(),
                self.values.len(),
                self.cells.as_mut_ptr(),
                self.cells.len(),
                self.log.as_mut_ptr(),
                self.log.len(),
                words.as_ptr(),
                words.len(),
                reply.as_mut_ptr(),
                reply.len(),
            )
        };
        let [_, value, runs, ..] = reply;
        match code {
            0 => Ok((value, usize::try_from(runs).expect("runs are counted from 0"))),
            number => {
                Err(Refusal::of(number)
                    .expect("the reply is long enough, and nine refusals are all"))
            }
        }
    }

    fn answer(&self, value: i64, runs: usize) -> Answer<'_> {
        Answer { value, rows: &self.log.as_chunks().0[..runs] }
    }

    /// Makes a signal.
    pub fn signal(&mut self, value: i64) -> Result<Node, Refusal> {
        self.command(&Command::Signal { value }).map(|answer| answer.node())
    }

    /// Makes a computed.
    pub fn computed(&mut self, formula: impl Into<Formula>) -> Result<Node, Refusal> {
        self.command(&Command::Computed { formula: formula.into() }).map(|answer| answer.node())
    }

    /// Makes an effect, which runs at once: the answer has its number and its first run.
    pub fn effect(
        &mut self,
        owner: Option<Node>,
        formula: impl Into<Formula>,
    ) -> Result<Answer<'_>, Refusal> {
        self.command(&Command::Effect { owner, formula: formula.into() })
    }

    /// Makes a scope.
    pub fn scope(&mut self, owner: Option<Node>) -> Result<Node, Refusal> {
        self.command(&Command::Scope { owner }).map(|answer| answer.node())
    }

    /// Sets a signal. Outside a batch, the effects run that have read something which now has another value.
    pub fn set(&mut self, node: Node, value: i64) -> Result<Answer<'_>, Refusal> {
        self.command(&Command::Set { node, value })
    }

    /// Sets a signal to so much more than it was worth when last read by a command, a formula or a flush; else as [`Tables::set`].
    ///
    /// ```
    /// use simmerthread::{Refusal, Room, Tables};
    /// let mut tables = Tables::new(Room::PROGRAM).unwrap();
    /// let sale = tables.signal(0)?;
    /// tables.add(sale, 100)?;
    /// tables.add(sale, 100)?; // nothing has read the first
    /// assert_eq!(tables.read(sale)?, 100);
    /// tables.add(sale, 100)?;
    /// assert_eq!(tables.read(sale)?, 200);
    /// # Ok::<(), Refusal>(())
    /// ```
    pub fn add(&mut self, node: Node, amount: i64) -> Result<Answer<'_>, Refusal> {
        self.command(&Command::Add { node, amount })
    }

    /// What a signal or computed is worth.
    pub fn read(&mut self, node: Node) -> Result<i64, Refusal> {
        self.command(&Command::Read { node }).map(|answer| answer.value)
    }

    /// Disposes of an effect or scope, and of all that it owns.
    pub fn dispose(&mut self, node: Node) -> Result<(), Refusal> {
        self.command(&Command::Dispose { node }).map(|_| ())
    }

    /// Starts a batch: effects wait.
    pub fn start(&mut self) -> Result<(), Refusal> {
        self.command(&Command::Start).map(|_| ())
    }

    /// Ends a batch. If it was the last that is open, the effects run.
    pub fn end(&mut self) -> Result<Answer<'_>, Refusal> {
        self.command(&Command::End)
    }

    /// The node of this number; none if it was never made.
    pub fn record(&self, node: Node) -> Option<Record<'_>> {
        let place = usize::try_from(node.0).ok()?;
        (place < self.count()).then(|| Record::new(self, place))
    }

    /// All nodes, gone ones too, in number order.
    pub fn records(&self) -> impl ExactSizeIterator<Item = Record<'_>> {
        (0..self.count()).map(|place| Record::new(self, place))
    }

    fn count(&self) -> usize {
        size(self.nodes[COUNT])
    }

    /// How many batches are open.
    pub fn depth(&self) -> usize {
        size(self.nodes[DEPTH])
    }

    /// The effects that wait for the end of the batch, the next to run first. A gone one that is still there does not run.
    pub fn queue(&self) -> impl ExactSizeIterator<Item = Node> {
        (0..size(self.nodes[QUEUE])).map(|i| node(size(self.nodes[NODE * (i + 1) + QUEUE])))
    }

    /// How much the tables hold at most.
    pub fn room(&self) -> Room {
        Room {
            nodes: self.nodes.len() / NODE - 1,
            links: self.links.len() / LINK - 1,
            cells: self.cells.len() / CELL,
            rows: self.log.len() / ROW,
        }
    }

    /// How much of the room is taken: nodes made, links kept in reserve, cells written, and the rows that a flush wants.
    ///
    /// ```
    /// use simmerthread::{Room, Tables};
    /// let mut tables = Tables::new(Room::PROGRAM).unwrap();
    /// let sale = tables.signal(5)?;
    /// tables.effect(None, sale)?;
    /// assert_eq!(tables.taken(), Room { nodes: 2, links: 2, cells: 1, rows: 1 });
    /// assert_eq!(tables.room(), Room::PROGRAM);
    /// # Ok::<(), simmerthread::Refusal>(())
    /// ```
    pub fn taken(&self) -> Room {
        let live = |record: &Record<'_>| record.kind() == Kind::Effect && !record.is_gone();
        Room {
            nodes: self.count(),
            links: self.records().map(|record| record.reserve()).sum(),
            cells: size(self.nodes[USED]),
            rows: self.records().filter(live).count(),
        }
    }
}
