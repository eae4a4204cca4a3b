//! What a script dwells on. Every script has one profile, drawn from its seed.

#[derive(Clone, Copy, PartialEq, Eq)]
pub enum Profile {
    /// Chains of computeds up to the greatest height.
    Deep,
    /// Many effects on few signals.
    Wide,
    /// Effects and scopes that own each other.
    Owners,
    /// Long batches with reads and disposals in them.
    Batch,
    /// Large formulas and many nodes, until the tables are full.
    Full,
    /// The ends of the range and the limits of formulas.
    Odd,
}

pub const PROFILES: [Profile; 6] =
    [Profile::Deep, Profile::Wide, Profile::Owners, Profile::Batch, Profile::Full, Profile::Odd];

#[derive(Clone, Copy)]
pub enum Action {
    Signal,
    Computed,
    Effect,
    Scope,
    Set,
    Add,
    Read,
    Dispose,
    Start,
    End,
}

/// How many of the actions, the first ones, make a node.
pub const MAKING: usize = 4;

#[derive(Clone, Copy)]
pub enum Shape {
    /// One cell.
    Lone,
    /// Two leaves joined.
    Pair,
    /// One node read twice with another read between (case 12).
    Repeated,
    /// A choose, and a read after it.
    Switch,
    /// A tree of a dozen cells.
    Tree,
    /// As many cells as asked, up to the most allowed.
    Large,
    /// As much nesting as asked, up to the most allowed.
    Spine,
}

impl Profile {
    pub fn actions(self) -> [(usize, Action); 10] {
        use Action::*;
        let weights = match self {
            Profile::Deep => [2, 28, 7, 1, 30, 5, 18, 2, 4, 5],
            Profile::Wide => [5, 13, 16, 1, 36, 6, 10, 3, 5, 6],
            Profile::Owners => [3, 5, 24, 9, 32, 4, 7, 5, 6, 7],
            Profile::Batch => [4, 10, 12, 4, 34, 9, 14, 6, 7, 7],
            Profile::Full => [14, 22, 16, 10, 20, 4, 8, 3, 3, 4],
            Profile::Odd => [7, 15, 11, 4, 24, 14, 14, 3, 4, 5],
        };
        let actions = [Signal, Computed, Effect, Scope, Set, Add, Read, Dispose, Start, End];
        std::array::from_fn(|i| (weights[i], actions[i]))
    }

    pub fn shapes(self) -> [(usize, Shape); 7] {
        use Shape::*;
        let weights = match self {
            Profile::Deep => [30, 30, 15, 20, 4, 0, 1],
            Profile::Wide => [15, 30, 20, 25, 10, 0, 0],
            Profile::Owners => [40, 20, 15, 20, 5, 0, 0],
            Profile::Batch => [20, 25, 20, 30, 5, 0, 0],
            Profile::Full => [15, 10, 10, 10, 20, 30, 5],
            Profile::Odd => [14, 22, 12, 13, 13, 8, 18],
        };
        let shapes = [Lone, Pair, Repeated, Switch, Tree, Large, Spine];
        std::array::from_fn(|i| (weights[i], shapes[i]))
    }
}
