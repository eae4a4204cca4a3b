//! Formulas, built by small functions. Whether one is legal, the engine decides: refusal 5.

use std::fmt;

use crate::Node;

/// A formula: cells of two words, in prefix order.
///
/// A node stands for its value and a number for itself:
///
/// ```
/// use simmerthread::{Node, choose, less, sum};
/// let balance = Node(3);
/// let hold = choose(less(balance, 8_000), 1_000, 0);
/// assert_eq!(hold.words(), [8, 0, 7, 0, 2, 3, 1, 8_000, 1, 1_000, 1, 0]);
/// assert_eq!(hold.to_string(), "if #3 < 8000 then 1000 else 0");
/// assert_eq!(sum(balance, hold).to_string(), "#3 + (if #3 < 8000 then 1000 else 0)");
/// ```
#[derive(Clone, Debug, PartialEq, Eq, Hash)]
pub struct Formula(Vec<i64>);

impl Formula {
    /// The words of its cells.
    pub fn words(&self) -> &[i64] {
        &self.0
    }

    /// The formula of these words, if they are cells of document 01 that make exactly one expression.
    ///
    /// ```
    /// use simmerthread::{Formula, Node, sum};
    /// assert_eq!(Formula::from_words(&[3, 0, 2, 0, 1, 5]), Some(sum(Node(0), 5)));
    /// assert_eq!(Formula::from_words(&[3, 0, 2, 0]), None);
    /// ```
    pub fn from_words(words: &[i64]) -> Option<Formula> {
        let (cells, over) = words.as_chunks();
        let mut owed = 1_usize;
        for &[code, operand] in cells {
            let arguments = match (code, operand) {
                (1 | 2, _) => 0,
                (3..=7, 0) => 2,
                (8, 0) => 3,
                _ => return None,
            };
            owed = owed.checked_sub(1)? + arguments;
        }
        (owed == 0 && over.is_empty()).then(|| Formula(words.to_vec()))
    }

    /// The nodes that its read cells name, in any branch, cell by cell.
    ///
    /// ```
    /// use simmerthread::{Node, choose};
    /// let formula = choose(Node(0), Node(1), Node(0));
    /// assert_eq!(formula.reads().collect::<Vec<_>>(), [Node(0), Node(1), Node(0)]);
    /// ```
    pub fn reads(&self) -> impl Iterator<Item = Node> {
        let (cells, _) = self.0.as_chunks();
        cells.iter().filter(|[code, _]| *code == 2).map(|&[_, node]| Node(node))
    }

    /// Its text, with other words for its nodes.
    ///
    /// ```
    /// use simmerthread::{Node, difference};
    /// let payout = difference(Node(3), Node(4));
    /// assert_eq!(payout.named(|node| ["balance", "hold"][node.0 as usize - 3]), "balance - hold");
    /// ```
    pub fn named<D: fmt::Display>(&self, name: impl Fn(Node) -> D) -> String {
        let mut text = String::new();
        self.write(&mut text, &name).expect("a string takes all");
        text
    }

    pub(crate) fn write<D: fmt::Display>(
        &self,
        out: &mut dyn fmt::Write,
        name: &dyn Fn(Node) -> D,
    ) -> fmt::Result {
        let (cells, _) = self.0.as_chunks();
        write_cells(cells, name, out)
    }

    fn of(code: i64, operand: i64, arguments: impl IntoIterator<Item = Formula>) -> Formula {
        let mut words = vec![code, operand];
        for argument in arguments {
            words.extend(argument.0);
        }
        Formula(words)
    }
}

/// The number k.
pub fn constant(k: i64) -> Formula {
    Formula::of(1, k, [])
}

/// What a signal or computed is worth.
pub fn read(node: Node) -> Formula {
    Formula::of(2, node.0, [])
}

/// a + b; it stops at the ends of the signed 64-bit range.
pub fn sum(a: impl Into<Formula>, b: impl Into<Formula>) -> Formula {
    Formula::of(3, 0, [a.into(), b.into()])
}

/// a - b; it stops at the ends of the signed 64-bit range.
pub fn difference(a: impl Into<Formula>, b: impl Into<Formula>) -> Formula {
    Formula::of(4, 0, [a.into(), b.into()])
}

/// The smaller of the two.
pub fn minimum(a: impl Into<Formula>, b: impl Into<Formula>) -> Formula {
    Formula::of(5, 0, [a.into(), b.into()])
}

/// The greater of the two.
pub fn maximum(a: impl Into<Formula>, b: impl Into<Formula>) -> Formula {
    Formula::of(6, 0, [a.into(), b.into()])
}

/// 1 if a is smaller than b, else 0.
pub fn less(a: impl Into<Formula>, b: impl Into<Formula>) -> Formula {
    Formula::of(7, 0, [a.into(), b.into()])
}

/// `then` if the condition is not 0, else `otherwise`. Only the branch that it takes is worked out, and read.
pub fn choose(
    condition: impl Into<Formula>,
    then: impl Into<Formula>,
    otherwise: impl Into<Formula>,
) -> Formula {
    Formula::of(8, 0, [condition.into(), then.into(), otherwise.into()])
}

impl From<Node> for Formula {
    fn from(node: Node) -> Formula {
        read(node)
    }
}

impl From<i64> for Formula {
    fn from(k: i64) -> Formula {
        constant(k)
    }
}

impl fmt::Display for Formula {
    fn fmt(&self, out: &mut fmt::Formatter<'_>) -> fmt::Result {
        self.write(out, &|node| node)
    }
}

/// How an expression holds together. One that must hold more than it does stands in parentheses.
#[derive(Clone, Copy, PartialEq, PartialOrd)]
enum Holds {
    /// if .. then .. else ..
    Loosely,
    /// a < b
    AsComparison,
    /// a + b - c, from the left: since a sum stops at the ends of the range, a + (b + c) may be another number.
    AsSum,
    /// 5, #3, min(a, b)
    Whole,
}

/// What is still to be written.
enum Part {
    Text(&'static str),
    /// The next expression of the cells, and how it must hold.
    Expression(Holds),
}

/// Writes the expression that the cells are. It keeps a stack of its own: no nesting is too deep for it.
fn write_cells<D: fmt::Display>(
    cells: &[[i64; 2]],
    name: &dyn Fn(Node) -> D,
    out: &mut dyn fmt::Write,
) -> fmt::Result {
    use Holds::*;
    let mut cells = cells.iter();
    let mut left = vec![Part::Expression(Loosely)];
    while let Some(part) = left.pop() {
        let must = match part {
            Part::Text(text) => {
                out.write_str(text)?;
                continue;
            }
            Part::Expression(must) => must,
        };
        let &[code, operand] = cells.next().expect("the functions above leave none out");
        // Before, between and behind the arguments; and how they must hold.
        type Parts = (Holds, &'static [&'static str], &'static [Holds]);
        let (holds, texts, arguments): Parts = match code {
            1 => {
                write!(out, "{operand}")?;
                continue;
            }
            2 => {
                write!(out, "{}", name(Node(operand)))?;
                continue;
            }
            3 => (AsSum, &["", " + ", ""], &[AsSum, Whole]),
            4 => (AsSum, &["", " - ", ""], &[AsSum, Whole]),
            5 => (Whole, &["min(", ", ", ")"], &[Loosely, Loosely]),
            6 => (Whole, &["max(", ", ", ")"], &[Loosely, Loosely]),
            7 => (AsComparison, &["", " < ", ""], &[AsSum, AsSum]),
            _ => {
                (Loosely, &["if ", " then ", " else ", ""], &[AsComparison, AsComparison, Loosely])
            }
        };
        let (open, close) = if holds < must { ("(", ")") } else { ("", "") };
        out.write_str(open)?;
        out.write_str(texts[0])?;
        left.push(Part::Text(close));
        for (argument, text) in arguments.iter().zip(&texts[1..]).rev() {
            left.push(Part::Text(text));
            left.push(Part::Expression(*argument));
        }
    }
    Ok(())
}

#[cfg(test)]
mod tests {
    use super::*;

    #[test]
    fn parentheses_where_they_are_needed_and_nowhere_else() {
        let [a, b, c] = [0, 1, 2].map(|n| read(Node(n)));
        let said = [
            (sum(sum(a.clone(), b.clone()), c.clone()), "#0 + #1 + #2"),
            (sum(a.clone(), sum(b.clone(), c.clone())), "#0 + (#1 + #2)"),
            (difference(a.clone(), difference(b.clone(), c.clone())), "#0 - (#1 - #2)"),
            (difference(a.clone(), -5), "#0 - -5"),
            (minimum(sum(a.clone(), 1), maximum(b.clone(), 0)), "min(#0 + 1, max(#1, 0))"),
            (less(less(a.clone(), 1), sum(b.clone(), 1)), "(#0 < 1) < #1 + 1"),
            (
                choose(less(a.clone(), 1), choose(b.clone(), 1, 2), choose(c.clone(), 3, 4)),
                "if #0 < 1 then (if #1 then 1 else 2) else if #2 then 3 else 4",
            ),
            (sum(choose(a, b, c), 1), "(if #0 then #1 else #2) + 1"),
        ];
        for (formula, text) in said {
            assert_eq!(formula.to_string(), text);
        }
    }

    #[test]
    fn no_nesting_is_too_deep() {
        let deep = 100_000;
        let words = [[3, 0].repeat(deep), [1, 1].repeat(deep + 1)].concat();
        let text = Formula::from_words(&words).unwrap().to_string();
        assert_eq!(text, "1".to_string() + &" + 1".repeat(deep));
    }

    #[test]
    fn words_of_one_expression() {
        let formula = choose(less(Node(0), 7), sum(Node(1), 2), minimum(3, maximum(4, 5)));
        let words = formula.words();
        assert_eq!(Formula::from_words(words).as_ref(), Some(&formula));
        for length in 0..words.len() {
            assert_eq!(Formula::from_words(&words[..length]), None);
        }
        assert_eq!(Formula::from_words(&[words, &[1, 0]].concat()), None);
        assert_eq!(Formula::from_words(&[9, 0]), None);
        assert_eq!(Formula::from_words(&[3, 1, 1, 0, 1, 0]), None);
    }
}
