//! The library as C sees it (`include/simmerthread.h`), over tables of our own, so that their words can be summed and its stack seen.

use simmerthread::Room;

use crate::answers::Answers;

// The crate `simmerthread` links the archive.
#[rustfmt::skip]
unsafe extern "C" {
    safe fn simmer_node_words(nodes: u64) -> u64;
    safe fn simmer_value_words(nodes: u64) -> u64;
    safe fn simmer_link_words(links: u64) -> u64;
    safe fn simmer_cell_words(cells: u64) -> u64;
    safe fn simmer_log_words(rows: u64) -> u64;
    fn simmer_empty(
        nodes: *mut u64, nodes_len: usize, links: *mut u64, links_len: usize,
        values: *mut i64, values_len: usize, cells: *mut i64, cells_len: usize,
    ) -> u64;
    fn simmer_command(
        nodes: *mut u64, nodes_len: usize, links: *mut u64, links_len: usize,
        values: *mut i64, values_len: usize, cells: *mut i64, cells_len: usize,
        log: *mut i64, log_len: usize, words: *const i64, words_len: usize,
        reply: *mut i64, reply_len: usize,
    ) -> u64;
    fn simmer_commands(
        nodes: *mut u64, nodes_len: usize, links: *mut u64, links_len: usize,
        values: *mut i64, values_len: usize, cells: *mut i64, cells_len: usize,
        rows: *mut i64, rows_len: usize, list: *const i64, list_len: usize,
        answers: *mut i64, answers_len: usize, reply: *mut i64, reply_len: usize,
    ) -> u64;
}

pub struct Lent {
    nodes: Vec<u64>,
    links: Vec<u64>,
    values: Vec<i64>,
    cells: Vec<i64>,
    log: Vec<i64>,
    answers: Vec<i64>,
    reply: [i64; 8],
}

impl Lent {
    /// Empty tables.
    pub fn new(room: Room) -> Lent {
        let mut lent = Lent {
            nodes: vec![0; simmer_node_words(room.nodes as u64) as usize],
            links: vec![0; simmer_link_words(room.links as u64) as usize],
            values: vec![0; simmer_value_words(room.nodes as u64) as usize],
            cells: vec![0; simmer_cell_words(room.cells as u64) as usize],
            log: vec![0; simmer_log_words(room.rows as u64) as usize],
            answers: Vec::new(),
            reply: [0; 8],
        };
        let Lent { nodes, links, values, cells, .. } = &mut lent;
        // SAFETY: four distinct slices, each with its own length.
        let code = unsafe {
            simmer_empty(
                nodes.as_mut_ptr(),
                nodes.len(),
                links.as_mut_ptr(),
                links.len(),
                values.as_mut_ptr(),
                values.len(),
                cells.as_mut_ptr(),
                cells.len(),
            )
        };
        assert_eq!(code, 0, "the lengths are those that the library named");
        lent
    }

    /// One command: the number of its refusal, or 0.
    pub fn send(&mut self, words: &[i64]) -> u64 {
        let Lent { nodes, links, values, cells, log, reply, .. } = self;
        // SAFETY: distinct slices, each with its own length.
        unsafe {
            simmer_command(
                nodes.as_mut_ptr(),
                nodes.len(),
                links.as_mut_ptr(),
                links.len(),
                values.as_mut_ptr(),
                values.len(),
                cells.as_mut_ptr(),
                cells.len(),
                log.as_mut_ptr(),
                log.len(),
                words.as_ptr(),
                words.len(),
                reply.as_mut_ptr(),
                reply.len(),
            )
        }
    }

    /// One command that is accepted, and its answer taken.
    pub fn answer(&mut self, words: &[i64], answers: &mut Answers) {
        let code = self.send(words);
        assert_eq!(code, 0, "refused: {words:?}");
        let [_, value, runs, ..] = self.reply;
        answers.take(value, &self.log.as_chunks().0[..runs as usize]);
    }

    /// Room for the rows and answers of a list of commands.
    pub fn make_room(&mut self, rows: usize, commands: usize) {
        self.log.resize(2 * rows, 0);
        self.answers.resize(3 * commands, 0);
    }

    /// A list of commands that are all accepted, in one call, and their answers taken.
    pub fn script(&mut self, list: &[i64], taken: &mut Answers) {
        let Lent { nodes, links, values, cells, log, answers, reply } = self;
        // SAFETY: distinct slices, each with its own length.
        let why = unsafe {
            simmer_commands(
                nodes.as_mut_ptr(),
                nodes.len(),
                links.as_mut_ptr(),
                links.len(),
                values.as_mut_ptr(),
                values.len(),
                cells.as_mut_ptr(),
                cells.len(),
                log.as_mut_ptr(),
                log.len(),
                list.as_ptr(),
                list.len(),
                answers.as_mut_ptr(),
                answers.len(),
                reply.as_mut_ptr(),
                reply.len(),
            )
        };
        assert_eq!(why, 0, "the list is not over");
        let [_, _, done, ..] = *reply;
        let mut rows = log.as_chunks().0;
        for &[code, value, runs] in &answers.as_chunks().0[..done as usize] {
            assert_eq!(code, 0, "refused");
            let (own, rest) = rows.split_at(runs as usize);
            taken.take(value, own);
            rows = rest;
        }
    }

    /// The sum of all words of the four tables: one plain loop over each.
    pub fn sum(&self) -> u64 {
        let mut sum = 0_u64;
        for table in [&self.nodes, &self.links] {
            for &word in table {
                sum = sum.wrapping_add(word);
            }
        }
        for table in [&self.values, &self.cells] {
            for &word in table {
                sum = sum.wrapping_add(word as u64);
            }
        }
        sum
    }

    /// How many words these are.
    pub fn words(&self) -> usize {
        self.nodes.len() + self.links.len() + self.values.len() + self.cells.len()
    }
}
