//! What the tables hold, to look at. Nothing here changes a word.

use std::fmt;

use crate::rows::*;
use crate::{Formula, Node, Tables};

/// What a node is.
#[derive(Clone, Copy, Debug, PartialEq, Eq, Hash)]
pub enum Kind {
    /// A value that is set from outside.
    Signal,
    /// A formula, worked out when it is read.
    Computed,
    /// A formula that is worked out, and logged, when what it has read has another value.
    Effect,
    /// An owner of effects and scopes.
    Scope,
}

impl fmt::Display for Kind {
    fn fmt(&self, out: &mut fmt::Formatter<'_>) -> fmt::Result {
        out.write_str(match self {
            Kind::Signal => "signal",
            Kind::Computed => "computed",
            Kind::Effect => "effect",
            Kind::Scope => "scope",
        })
    }
}

/// The flags of a node: single bits of one byte, under document 01's names.
///
/// ```
/// use simmerthread::Flags;
/// assert!(Flags(17).has(Flags::DIRTY));
/// assert_eq!(Flags(49).to_string(), "mutable, dirty, pending");
/// assert_eq!(Flags(49).clear(Flags::MUTABLE).to_string(), "dirty, pending");
/// ```
#[derive(Clone, Copy, Debug, PartialEq, Eq, Hash)]
pub struct Flags(pub u8);

impl Flags {
    /// A signal, or a computed that was worked out.
    pub const MUTABLE: Flags = Flags(1);
    /// An effect that is not queued.
    pub const WATCHING: Flags = Flags(2);
    /// Never set at rest.
    pub const RECURSED_CHECK: Flags = Flags(4);
    /// Never set at rest.
    pub const RECURSED: Flags = Flags(8);
    /// Its value is not the one to be read: a pending one waits, or the formula must be worked out.
    pub const DIRTY: Flags = Flags(16);
    /// Something below it was written, so that it has to be looked at before it is read.
    pub const PENDING: Flags = Flags(32);

    const NAMES: [(Flags, &str); 6] = [
        (Flags::MUTABLE, "mutable"),
        (Flags::WATCHING, "watching"),
        (Flags::RECURSED_CHECK, "recursed check"),
        (Flags::RECURSED, "recursed"),
        (Flags::DIRTY, "dirty"),
        (Flags::PENDING, "pending"),
    ];

    /// Whether one of these is set.
    pub fn has(self, some: Flags) -> bool {
        self.0 & some.0 != 0
    }

    /// All but these.
    pub fn clear(self, some: Flags) -> Flags {
        Flags(self.0 & !some.0)
    }
}

impl fmt::Display for Flags {
    fn fmt(&self, out: &mut fmt::Formatter<'_>) -> fmt::Result {
        let mut between = "";
        for (_, name) in Flags::NAMES.iter().filter(|(flag, _)| self.has(*flag)) {
            write!(out, "{between}{name}")?;
            between = ", ";
        }
        Ok(())
    }
}

/// A node as it stands in the tables.
///
/// ```
/// use simmerthread::{Flags, Kind, Node, Room, Tables, sum};
/// let mut tables = Tables::new(Room::PROGRAM).unwrap();
/// let sale = tables.signal(5)?;
/// let total = tables.computed(sum(sale, 1))?;
/// let payout = tables.effect(None, total)?.node();
///
/// let record = tables.record(total).unwrap();
/// assert_eq!(record.kind(), Kind::Computed);
/// assert_eq!(record.formula().unwrap().to_string(), "#0 + 1");
/// assert_eq!(record.value(), Some(6));
/// assert_eq!(record.dependencies().collect::<Vec<_>>(), [sale]);
///
/// // In a batch the new value waits, and so does the effect.
/// tables.start()?;
/// tables.set(sale, 7)?;
/// let record = tables.record(sale).unwrap();
/// assert_eq!((record.value(), record.pending()), (Some(5), Some(7)));
/// assert!(record.flags().has(Flags::DIRTY));
/// assert_eq!(tables.queue().collect::<Vec<_>>(), [payout]);
/// # Ok::<(), simmerthread::Refusal>(())
/// ```
#[derive(Clone, Copy, Debug)]
pub struct Record<'a> {
    tables: &'a Tables,
    place: usize,
}

impl<'a> Record<'a> {
    pub(crate) fn new(tables: &'a Tables, place: usize) -> Record<'a> {
        Record { tables, place }
    }

    fn word(&self, field: usize) -> u64 {
        self.tables.nodes[NODE * (self.place + 1) + field]
    }

    fn size(&self, field: usize) -> usize {
        size(self.word(field))
    }

    /// Its number.
    pub fn node(&self) -> Node {
        node(self.place)
    }

    /// What it is.
    pub fn kind(&self) -> Kind {
        match self.word(KIND) {
            SIGNAL => Kind::Signal,
            COMPUTED => Kind::Computed,
            EFFECT => Kind::Effect,
            SCOPE => Kind::Scope,
            word => unreachable!("no kind is {word} in well-formed tables"),
        }
    }

    /// Whether it is an effect or scope that was disposed of.
    pub fn is_gone(&self) -> bool {
        self.word(GONE) != 0
    }

    /// Its flags.
    pub fn flags(&self) -> Flags {
        Flags(u8::try_from(self.word(FLAGS)).expect("well-formed flags are one byte"))
    }

    /// The formula of a computed or an effect.
    pub fn formula(&self) -> Option<Formula> {
        let cells = match self.kind() {
            Kind::Computed | Kind::Effect => self.size(CELLS),
            Kind::Signal | Kind::Scope => return None,
        };
        let start = CELL * self.size(START);
        Formula::from_words(&self.tables.cells[start..start + CELL * cells])
    }

    /// What a signal is worth, or what a computed was when it was last worked out; none if it never was.
    pub fn value(&self) -> Option<i64> {
        let has_one = match self.kind() {
            Kind::Signal => true,
            Kind::Computed => self.flags() != Flags(0),
            Kind::Effect | Kind::Scope => false,
        };
        has_one.then(|| self.tables.values[VALUES * self.place])
    }

    /// What was last written to a signal. It becomes the value when the signal is next read.
    pub fn pending(&self) -> Option<i64> {
        (self.kind() == Kind::Signal).then(|| self.tables.values[VALUES * self.place + PENDING])
    }

    /// The owner of an effect or scope, gone or not.
    pub fn owner(&self) -> Option<Node> {
        self.size(OWNER).checked_sub(1).map(node)
    }

    /// The height of a signal or computed; the owner depth of an effect or scope.
    pub fn level(&self) -> usize {
        self.size(LEVEL)
    }

    /// The read cells of its formula.
    pub fn reads(&self) -> usize {
        self.size(READS)
    }

    /// The links that are kept in reserve for it.
    pub fn reserve(&self) -> usize {
        if self.is_gone() {
            return 0;
        }
        match self.kind() {
            Kind::Signal => 0,
            Kind::Computed => 2 * self.reads(),
            Kind::Effect => 2 * self.reads() + usize::from(self.owner().is_some()),
            Kind::Scope => usize::from(self.owner().is_some()),
        }
    }

    /// The nodes that it is linked to as their subscriber, in the order of the list: what its formula has read, and what it owns. One
    /// that was read twice may stand there twice.
    pub fn dependencies(&self) -> impl Iterator<Item = Node> + use<'a> {
        let links = &self.tables.links;
        let mut next = self.size(DEPS);
        std::iter::from_fn(move || {
            let row = LINK * next;
            next = size(*links.get(row + NEXT_DEP).filter(|_| row > 0)?);
            Some(node(size(links[row + DEP])))
        })
    }
}

/// A word as a count or a place.
pub(crate) fn size(word: u64) -> usize {
    usize::try_from(word).expect("the machine has 64 bits")
}

/// The node at this place.
pub(crate) fn node(place: usize) -> Node {
    Node(i64::try_from(place).expect("nodes are at most 1,024"))
}
