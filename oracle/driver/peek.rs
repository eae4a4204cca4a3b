//! What the engine's types keep private, read without changing it. All that is unsafe about
//! looking stands here; each cast is checked for its size by the compiler.

use crate::node::{ComputedContext, Node, NodeContextKind, SignalContext};
use crate::primitive::{Flags, SmallAny, Version};

/// The address of a node: its identity within one process.
pub fn address(node: Node) -> usize {
    // SAFETY: a node is one pointer and nothing else.
    unsafe { std::mem::transmute(node) }
}

pub fn count(version: Version) -> usize {
    // SAFETY: a version is one usize and nothing else.
    unsafe { std::mem::transmute(version) }
}

pub fn byte(flags: Flags) -> u8 {
    // SAFETY: flags are one byte and nothing else.
    unsafe { std::mem::transmute(flags) }
}

/// The current value of a signal, or a computed's if it has been evaluated; else none.
pub fn value(node: Node) -> Option<i64> {
    match node.kind() {
        NodeContextKind::Signal => {
            let signal: Node<SignalContext> = node.try_into().ok()?;
            // SAFETY: nothing else is done with the node meanwhile.
            Some(unsafe { signal.with_context(|context| integer(&context.current_value)) })
        }
        NodeContextKind::Computed => {
            let computed: Node<ComputedContext> = node.try_into().ok()?;
            // SAFETY: as above.
            unsafe { computed.with_context(|context| context.value.as_ref().map(integer)) }
        }
        NodeContextKind::Effect | NodeContextKind::None => None,
    }
}

/// The pending value of a signal; none for every other node.
pub fn pending(node: Node) -> Option<i64> {
    let signal: Node<SignalContext> = node.try_into().ok()?;
    // SAFETY: nothing else is done with the node meanwhile.
    Some(unsafe { signal.with_context(|context| integer(&context.pending_value)) })
}

fn integer(any: &SmallAny) -> i64 {
    // SAFETY: the driver makes signals and computeds of i64 only.
    unsafe { *any.downcast_ref_unchecked::<i64>() }
}
