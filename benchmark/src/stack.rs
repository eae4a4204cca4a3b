//! How much stack the library's calls take at the worst shapes: a thread's stack is painted below the call, and looked at after it.

use std::thread;

use simmerthread::{Command, Formula, Node, Room, choose, sum};

use crate::answers::Answers;
use crate::library::Lent;

/// Bytes painted; no call here takes nearly as many.
const PAINTED: usize = 3 << 20;

/// Bytes next to the painting function that are left alone: its own frame.
const MARGIN: usize = 512;

const PAINT: u64 = 0x5eed_5eed_5eed_5eed;

/// The greatest nesting, height and owner depth.
const NESTING: usize = 16;
const HEIGHT: usize = 64;
const OWNERS: usize = 16;

/// A name, and the bytes of stack below the caller.
pub type Depth = (&'static str, usize);

/// All that is measured, the test of the tables first. A formula nests in sums or in choices; what takes most of these counts.
pub fn depths() -> Vec<Depth> {
    let nestings: [fn(Formula) -> Formula; 3] =
        [|inner| sum(inner, 1), |inner| choose(1, inner, 0), |inner| choose(inner, 2, 1)];
    let mut found = vec![("the test of the tables alone", refused())];
    let [sums, branches, conditions] = nestings.map(chain);
    for ((a, b), c) in sums.into_iter().zip(branches).zip(conditions) {
        found.push((a.0, a.1.max(b.1).max(c.1)));
    }
    found
}

fn refused() -> usize {
    let mut lent = Lent::new(Room::HOST);
    taken(|| assert_eq!(lent.send(&[0]), 2, "there is no command 0"))
}

/// A signal, computeds one over the other as high as they may be, each read as deep in the next one's formula as it may be, and an effect
/// below as many owners as there may be, which reads the last computed only while a switch is not 0.
fn chain(nest: fn(Formula) -> Formula) -> [Depth; 4] {
    let nested = |node: Node| (1..NESTING).fold(node.into(), |inner, _| nest(inner));
    let mut commands = vec![Command::Signal { value: 1 }, Command::Signal { value: 0 }];
    let (head, switch) = (Node(0), Node(1));
    let mut last = head;
    for _ in 0..HEIGHT {
        commands.push(Command::Computed { formula: nested(last) });
        last = Node(commands.len() as i64 - 1);
    }
    let top = last;
    let mut owner = None;
    for _ in 1..OWNERS {
        commands.push(Command::Scope { owner });
        owner = Some(Node(commands.len() as i64 - 1));
    }
    let outermost = Node(top.0 + 1);
    // Behind the switch one level less is left.
    let inner = (2..NESTING).fold(top.into(), |inner, _| nest(inner));
    commands.push(Command::Effect { owner, formula: choose(switch, inner, 0) });
    let mut lent = Lent::new(Room::HOST);
    for command in commands {
        lent.answer(&command.words(), &mut Answers::default());
    }
    let mut send = |command: Command| {
        let words = command.words();
        taken(|| lent.answer(&words, &mut Answers::default()))
    };
    let on = Command::Set { node: switch, value: 1 };
    let off = Command::Set { node: switch, value: 0 };
    let first = send(on.clone());
    let written = send(Command::Set { node: head, value: 5 });
    let dropped = send(off);
    let again = send(on);
    let disposed = send(Command::Dispose { node: outermost });
    [
        ("64 computeds worked out for the first time, in a flush", first),
        ("64 computeds worked out anew, in a flush", written.max(again)),
        ("64 computeds dropped by a run that reads them no more", dropped),
        ("16 owners disposed of, and 64 computeds with them", disposed),
    ]
}

/// Bytes of stack that a call takes, on a thread of its own.
fn taken(mut call: impl FnMut() + Send) -> usize {
    thread::scope(|scope| {
        let thread = thread::Builder::new().stack_size(PAINTED + (1 << 20));
        let running = thread.spawn_scoped(scope, || painted(&mut call));
        running.expect("a thread starts").join().expect("it ends well")
    })
}

#[inline(never)]
fn painted(call: &mut dyn FnMut()) -> usize {
    let here = std::hint::black_box(0_u64);
    let top = &raw const here as usize;
    let (low, high) = (top - PAINTED, top - MARGIN);
    // SAFETY: the thread's stack goes on for longer than this below its frame, and nothing is there yet.
    for at in (low..high).step_by(8) {
        unsafe { (at as *mut u64).write_volatile(PAINT) };
    }
    call();
    // SAFETY: the same words, now free again.
    let lowest =
        (low..high).step_by(8).find(|&at| unsafe { (at as *const u64).read_volatile() } != PAINT);
    top - lowest.unwrap_or(high)
}
