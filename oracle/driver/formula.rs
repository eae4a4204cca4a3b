//! Formulas (document 01, Commands): what a list of cells means, and which lists mean nothing.

pub const MOST_CELLS: usize = 64;
pub const MOST_NESTING: usize = 16;

const CONSTANT: i64 = 1;
const READ: i64 = 2;

#[derive(Clone, Copy)]
pub struct Cell {
    pub code: i64,
    pub operand: i64,
}

/// The cells in a list of words, two words each.
pub fn cells_of(words: &[i64]) -> Vec<Cell> {
    let (pairs, _) = words.as_chunks();
    pairs.iter().map(|&[code, operand]| Cell { code, operand }).collect()
}

/// The operands of the read cells, in cell order, those of branches never taken too.
pub fn named(cells: &[Cell]) -> impl Iterator<Item = i64> {
    cells.iter().filter(|cell| cell.code == READ).map(|cell| cell.operand)
}

pub enum Formula {
    Constant(i64),
    Read(i64),
    Join(fn(i64, i64) -> i64, Box<[Formula; 2]>),
    Choose(Box<[Formula; 3]>),
}

impl Formula {
    /// None if the cells break a rule of shape; what the reads name is judged elsewhere.
    pub fn of(cells: &[Cell]) -> Option<Formula> {
        if cells.len() > MOST_CELLS {
            return None;
        }
        let mut rest = cells;
        let formula = take(&mut rest, MOST_NESTING)?;
        rest.is_empty().then_some(formula)
    }

    /// Arguments go left to right; choose works out only the branch it takes.
    pub fn value(&self, read: &impl Fn(i64) -> i64) -> i64 {
        match self {
            Formula::Constant(k) => *k,
            Formula::Read(n) => read(*n),
            Formula::Join(join, arguments) => {
                let [first, second] = &**arguments;
                let left = first.value(read);
                let right = second.value(read);
                join(left, right)
            }
            Formula::Choose(arguments) => {
                let [condition, then, otherwise] = &**arguments;
                let taken = if condition.value(read) != 0 { then } else { otherwise };
                taken.value(read)
            }
        }
    }
}

/// Takes one expression off the front; `nesting` levels are still allowed.
fn take(rest: &mut &[Cell], nesting: usize) -> Option<Formula> {
    let inner = nesting.checked_sub(1)?;
    let (&cell, after) = rest.split_first()?;
    *rest = after;
    match (cell.code, cell.operand) {
        (CONSTANT, k) => Some(Formula::Constant(k)),
        (READ, n) => Some(Formula::Read(n)),
        (3, 0) => join(i64::saturating_add, rest, inner),
        (4, 0) => join(i64::saturating_sub, rest, inner),
        (5, 0) => join(i64::min, rest, inner),
        (6, 0) => join(i64::max, rest, inner),
        (7, 0) => join(less, rest, inner),
        (8, 0) => choose(rest, inner),
        _ => None,
    }
}

fn join(join: fn(i64, i64) -> i64, rest: &mut &[Cell], nesting: usize) -> Option<Formula> {
    let first = take(rest, nesting)?;
    let second = take(rest, nesting)?;
    Some(Formula::Join(join, Box::new([first, second])))
}

fn choose(rest: &mut &[Cell], nesting: usize) -> Option<Formula> {
    let condition = take(rest, nesting)?;
    let then = take(rest, nesting)?;
    let otherwise = take(rest, nesting)?;
    Some(Formula::Choose(Box::new([condition, then, otherwise])))
}

fn less(first: i64, second: i64) -> i64 {
    i64::from(first < second)
}
