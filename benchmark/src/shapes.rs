//! The shapes of work: commands that make a graph, and a turn of commands that can be repeated for ever.

use simmerthread::{Command, Formula, Node, choose, difference, less, sum};

/// One shape at one size.
pub struct Work {
    /// As many nodes as the graph really has.
    pub nodes: usize,
    pub graph: Vec<Command>,
    pub turn: Vec<Command>,
}

/// A name, and the graph of at most so many nodes.
pub type Shape = (&'static str, fn(usize) -> Work);

/// The ten shapes of the table.
pub const SHAPES: [Shape; 10] = [
    ("deep chain", deep_chain),
    ("broad fan", broad_fan),
    ("diamond", diamond),
    ("triangle", triangle),
    ("mux", mux),
    ("unstable branch", unstable_branch),
    ("avoidable change", avoidable_change),
    ("repeated reads", repeated_reads),
    ("grid over layers", grid),
    ("the host's day", day),
];

/// The name of the last shape, whose turn is a second of the host's day.
pub const DAY: &str = "the host's day";

/// Writes in that second.
pub const WRITES: usize = 300;

/// Most reads in a formula: 32 reads and 31 sums are 63 cells.
const MOST_READS: usize = 32;

/// Computeds in a chain: one less than the greatest height.
const CHAIN: usize = 63;

#[derive(Default)]
struct Graph(Vec<Command>);

impl Graph {
    fn make(&mut self, command: Command) -> Node {
        self.0.push(command);
        Node(self.0.len() as i64 - 1)
    }

    fn signal(&mut self, value: i64) -> Node {
        self.make(Command::Signal { value })
    }

    fn computed(&mut self, formula: impl Into<Formula>) -> Node {
        self.make(Command::Computed { formula: formula.into() })
    }

    fn effect(&mut self, formula: impl Into<Formula>) -> Node {
        self.make(Command::Effect { owner: None, formula: formula.into() })
    }

    /// A sum of any number of nodes, over as many layers of computeds as it takes.
    fn total(&mut self, nodes: &[Node]) -> Node {
        let mut layer = nodes.to_vec();
        while layer.len() > MOST_READS {
            layer = layer.chunks(MOST_READS).map(|part| self.computed(sum_of(part))).collect();
        }
        self.computed(sum_of(&layer))
    }

    /// How many nodes there are.
    fn len(&self) -> usize {
        self.0.len()
    }

    fn work(self, turn: Vec<Command>) -> Work {
        Work { nodes: self.0.len(), graph: self.0, turn }
    }

    /// A turn that sets one signal twice, and back.
    fn written(self, node: Node) -> Work {
        self.work(vec![Command::Set { node, value: 2 }, Command::Set { node, value: 1 }])
    }
}

/// The sum of a few nodes, as a tree of least depth.
fn sum_of(nodes: &[Node]) -> Formula {
    match nodes {
        [one] => (*one).into(),
        _ => {
            let (left, right) = nodes.split_at(nodes.len() / 2);
            sum(sum_of(left), sum_of(right))
        }
    }
}

/// A signal, computeds that each add 1 to the one before, and an effect at the end; from 64 nodes on, several such chains of one signal.
fn deep_chain(most: usize) -> Work {
    let mut graph = Graph::default();
    let head = graph.signal(1);
    while graph.len() + 2 <= most {
        let mut last = head;
        for _ in 0..CHAIN.min(most - graph.len() - 1) {
            last = graph.computed(sum(last, 1));
        }
        graph.effect(last);
    }
    graph.written(head)
}

/// A signal, computeds that all read it, and an effect behind each.
fn broad_fan(most: usize) -> Work {
    let mut graph = Graph::default();
    let head = graph.signal(1);
    while graph.len() + 2 <= most {
        let one = graph.computed(sum(head, graph.len() as i64));
        graph.effect(one);
    }
    graph.written(head)
}

/// A signal, computeds that all read it, the sum of all these, and one effect.
fn diamond(most: usize) -> Work {
    let mut graph = Graph::default();
    let head = graph.signal(1);
    let wide = (most - 3) * MOST_READS / (MOST_READS + 1);
    let sides: Vec<Node> = (0..wide).map(|i| graph.computed(sum(head, i as i64))).collect();
    let total = graph.total(&sides);
    graph.effect(total);
    graph.written(head)
}

/// A chain, and the sum of every computed in it, with an effect; from 64 nodes on, several of one signal.
fn triangle(most: usize) -> Work {
    let mut graph = Graph::default();
    let head = graph.signal(1);
    while graph.len() + 4 <= most {
        let mut chain = vec![head];
        for _ in 1..MOST_READS.min(most - graph.len() - 2) {
            chain.push(graph.computed(sum(chain[chain.len() - 1], 1)));
        }
        let total = graph.computed(sum_of(&chain[1..]));
        graph.effect(total);
    }
    graph.written(head)
}

/// Signals, a sum of all of them, and for each signal a computed that reads the sum and the signal, with an effect. One signal is written at
/// a time, so that of all computeds one has another value.
fn mux(most: usize) -> Work {
    let mut graph = Graph::default();
    let wide = (most - 1) * MOST_READS / (3 * MOST_READS + 1);
    let heads: Vec<Node> = (0..wide).map(|i| graph.signal(i as i64 + 1)).collect();
    let all = graph.total(&heads);
    for &head in &heads {
        let one = graph.computed(choose(all, head, head));
        graph.effect(one);
    }
    let turn = [100, 0].into_iter().flat_map(|more| {
        let value = move |node: Node| node.0 + 1 + more;
        [heads[0], heads[wide / 2], heads[wide - 1]]
            .map(|node| Command::Set { node, value: value(node) })
    });
    let turn = turn.collect();
    graph.work(turn)
}

/// A signal that is now 1, now 0, and computeds that by it read one of two others: each turn links and unlinks.
fn unstable_branch(most: usize) -> Work {
    let mut graph = Graph::default();
    let head = graph.signal(1);
    while graph.len() + 4 <= most {
        let double = graph.computed(sum(head, sum(head, 7)));
        let inverse = graph.computed(difference(0, head));
        let current = graph.computed(choose(head, double, inverse));
        graph.effect(current);
    }
    graph.work(vec![Command::Set { node: head, value: 0 }, Command::Set { node: head, value: 1 }])
}

/// Five computeds in a row, of which the second is always worth 0: what is behind it need not be worked out, and no effect runs.
fn avoidable_change(most: usize) -> Work {
    let mut graph = Graph::default();
    let head = graph.signal(1);
    while graph.len() + 6 <= most {
        let first = graph.computed(head);
        let still = graph.computed(less(first, 0));
        let third = graph.computed(sum(still, 1));
        let fourth = graph.computed(sum(third, 2));
        let fifth = graph.computed(sum(fourth, 3));
        graph.effect(fifth);
    }
    graph.written(head)
}

/// Computeds that read one signal seven times each, with an effect behind each.
fn repeated_reads(most: usize) -> Work {
    let mut graph = Graph::default();
    let head = graph.signal(1);
    while graph.len() + 2 <= most {
        let seven = graph.computed(sum_of(&[head; 7]));
        graph.effect(seven);
    }
    graph.written(head)
}

/// Four signals, and layers of four computeds over the layer before, an effect behind each; a batch writes all four, and the last layer is
/// read. Two such grids at the greatest size, which is higher than a grid may be.
fn grid(most: usize) -> Work {
    let mut graph = Graph::default();
    let mut turn = Vec::new();
    while graph.len() + 12 <= most {
        let first: [Node; 4] = std::array::from_fn(|i| graph.signal(i as i64 + 1));
        let mut layer = first;
        for _ in 0..CHAIN.min((most - graph.len()) / 8) {
            let [a, b, c, d] = layer;
            layer = [
                graph.computed(b),
                graph.computed(difference(a, c)),
                graph.computed(sum(b, d)),
                graph.computed(c),
            ];
            for node in layer {
                graph.effect(node);
            }
        }
        for values in [[4, 3, 2, 1], [1, 2, 3, 4]] {
            turn.push(Command::Start);
            let sets = first.into_iter().zip(values);
            turn.extend(sets.map(|(node, value)| Command::Set { node, value }));
            turn.push(Command::End);
            turn.extend(layer.map(|node| Command::Read { node }));
        }
    }
    graph.work(turn)
}

/// What a host with 40 sellers does in a second, or one with fewer: 300 writes, 100 of them in batches, and 40 balances read. A seller is
/// a scope with 16 sales, four subtotals, balance, hold, what is due, and the payout.
fn day(most: usize) -> Work {
    const SALES: usize = 16;
    const SELLER: usize = SALES + 9;
    let mut graph = Graph::default();
    let mut sellers = Vec::new();
    while graph.len() == 0 || graph.len() + SELLER <= most.min(40 * SELLER) {
        let scope = graph.make(Command::Scope { owner: None });
        let sales: [Node; SALES] = std::array::from_fn(|i| graph.signal(100 * i as i64));
        let parts: Vec<Node> = sales.chunks(4).map(|four| graph.computed(sum_of(four))).collect();
        let balance = graph.computed(sum_of(&parts));
        let hold = graph.computed(choose(less(balance, 12_000), 1_000, 0));
        let due = graph.computed(difference(balance, hold));
        graph.make(Command::Effect { owner: Some(scope), formula: due.into() });
        sellers.push((sales, balance));
    }
    // A fixed sequence that looks like chance: the same commands in every run.
    let mut state = 1_u64;
    let mut chance = |below: usize| {
        state =
            state.wrapping_mul(6_364_136_223_846_793_005).wrapping_add(1_442_695_040_888_963_407);
        (state >> 33) as usize % below
    };
    let mut turn = Vec::new();
    for second in 0..20 {
        // Ten sales, one by one.
        for _ in 0..10 {
            let (sales, _) = sellers[chance(sellers.len())];
            turn.push(Command::Add {
                node: sales[chance(SALES)],
                amount: chance(2_000) as i64 - 999,
            });
        }
        // In every other batch what is moved between sales of one seller comes to nothing.
        let (sales, _) = sellers[chance(sellers.len())];
        let from = chance(SALES);
        turn.push(Command::Start);
        for (place, amount) in [-100, 20, 30, 40, 10 + second % 2].into_iter().enumerate() {
            turn.push(Command::Add { node: sales[(from + place) % SALES], amount });
        }
        turn.push(Command::End);
        // Two balances are looked at.
        for _ in 0..2 {
            turn.push(Command::Read { node: sellers[chance(sellers.len())].1 });
        }
    }
    graph.work(turn)
}

/// The four sizes at which each shape is run.
pub const SIZES: [usize; 4] = [16, 64, 256, 1_024];

/// Tables as full as they may be: 1,024 nodes, all cells in use, the whole reserve taken. Half of the nodes read eight others each.
pub fn full() -> Vec<Command> {
    let mut graph = Graph::default();
    let signals: Vec<Node> = (0..512).map(|i| graph.signal(i + 1)).collect();
    for i in 0..512 {
        let eight: Vec<Node> = (0..8).map(|k| signals[(i * 5 + k * 61) % 512]).collect();
        let formula = sum(sum_of(&eight[2..]), choose(eight[0], eight[1], 0));
        graph.effect(formula);
    }
    graph.0
}
