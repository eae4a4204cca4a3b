//! A reactive engine that pays people, proved: signals, computeds, effects and scopes over tables of a fixed size.
//!
//! **Provisional**, as `include/simmerthread.h` is: names may change until the change requests have landed.
//!
//! [`Tables`] owns the words that the library is lent. Each method is one command; what it answers, and every word it leaves,
//! is determined by document 01 and proved. A refused command is an [`Err`] with a [`Refusal`], and has changed nothing.
//!
//! For people there are [`Record`]s, which show the tables, [`Script`], which reads the operator's lines, and commands and formulas that
//! print as one would write them. The program `show`, behind `./steps` and `./graph`, is made of these.
//!
//! ```
//! use simmerthread::{Refusal, Room, Run, Tables, choose, difference, less, sum};
//!
//! # fn main() -> Result<(), Refusal> {
//! let mut tables = Tables::new(Room::HOST).expect("the host's room is within the limits");
//!
//! // A seller with two sales. While the balance is less than 8,000, 1,000 of it are held back.
//! let seller = tables.scope(None)?;
//! let sale = tables.signal(4_000)?;
//! let other = tables.signal(2_500)?;
//! let balance = tables.computed(sum(sale, other))?;
//! let hold = tables.computed(choose(less(balance, 8_000), 1_000, 0))?;
//!
//! // The payout runs at once, and the seller owns it.
//! let made = tables.effect(Some(seller), difference(balance, hold))?;
//! let payout = made.node();
//! assert_eq!(made.runs().collect::<Vec<_>>(), [Run { effect: payout, value: 5_500 }]);
//!
//! // From one sale to the other, in a batch: the balance is what it was, and nobody is paid.
//! tables.start()?;
//! tables.set(sale, 5_000)?;
//! tables.set(other, 1_500)?;
//! assert_eq!(tables.end()?.runs().count(), 0);
//!
//! // The hold falls away: one payout, not two.
//! let paid: Vec<Run> = tables.add(other, 1_500)?.runs().collect();
//! assert_eq!(paid, [Run { effect: payout, value: 8_000 }]);
//!
//! // The seller leaves, and the payout with it.
//! tables.dispose(seller)?;
//! assert_eq!(tables.set(sale, 0)?.runs().count(), 0);
//! assert_eq!(tables.dispose(payout), Err(Refusal::Gone));
//! # Ok(())
//! # }
//! ```

mod answer;
mod answers;
mod command;
mod formula;
mod record;
mod refusal;
mod rows;
mod script;
mod tables;

pub use answer::{Answer, Run};
pub use answers::Answers;
pub use command::{Command, Node};
pub use formula::{Formula, choose, constant, difference, less, maximum, minimum, read, sum};
pub use record::{Flags, Kind, Record};
pub use refusal::Refusal;
pub use script::{Script, Unreadable};
pub use tables::{Room, Tables};

/// The examples of the host's page are run too.
#[cfg(doctest)]
#[doc = include_str!("../../../docs/HOST.md")]
mod host_page {}
