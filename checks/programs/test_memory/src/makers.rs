//! Making a queue, a reassembly, an end and a world on heaps that grow by 16 bytes.
use crate::CONFIG;
use linked_list_allocator::LocalHeap;
use std::alloc::Global;
use std::io;
use tcp_conn::{ConfigError, Endpoint};
use tcp_reasm::Reassembly;
use tcp_replay::{MAX_LIFE, World, WorldError};
use tcp_sendq::{QueueError, SendQueue};

/// What is made.
#[derive(Clone, Copy)]
enum Kind {
    Queue,
    Inbox,
    End,
    EndOfOneRun,
    World,
    WorldWithLifetime,
    WorldWithRuns,
}

/// Whether the value is made on this heap, or refused because there is no memory; `None` where it is refused for
/// anything else.
fn is_made(heap: &LocalHeap, kind: Kind) -> Option<bool> {
    match kind {
        Kind::Queue => is_queue_made(heap),
        Kind::Inbox => is_inbox_made(heap),
        Kind::End => is_end_made(Endpoint::new_in(heap, CONFIG)),
        Kind::EndOfOneRun => is_end_made(Endpoint::with_runs_in(heap, CONFIG, 1)),
        Kind::World => is_made_of(World::new_in(heap, CONFIG, CONFIG)),
        Kind::WorldWithLifetime => {
            is_made_of(World::with_lifetime_in(heap, CONFIG, CONFIG, MAX_LIFE))
        }
        Kind::WorldWithRuns => {
            is_made_of(World::with_runs_in(heap, CONFIG, CONFIG, MAX_LIFE, 2, 4))
        }
    }
}

fn is_queue_made(heap: &LocalHeap) -> Option<bool> {
    match SendQueue::new_in(heap, CONFIG.send_capacity) {
        Ok(_) => Some(true),
        Err(QueueError::NoMemory) => Some(false),
        Err(QueueError::BadCapacity) => None,
    }
}

fn is_inbox_made(heap: &LocalHeap) -> Option<bool> {
    match Reassembly::new_in(heap, CONFIG.recv_capacity) {
        Ok(_) => Some(true),
        Err(fault) => is_want_of_memory(fault.number()),
    }
}

fn is_end_made(made: Result<Endpoint<&LocalHeap>, ConfigError>) -> Option<bool> {
    match made {
        Ok(_) => Some(true),
        Err(fault) => is_want_of_memory(fault.number()),
    }
}

fn is_made_of(world: Result<World<&LocalHeap>, WorldError>) -> Option<bool> {
    match world {
        Ok(_) => Some(true),
        Err(WorldError::Config(_, fault)) => is_want_of_memory(fault.number()),
    }
}

fn is_want_of_memory(number: u8) -> Option<bool> {
    if number == 22 { Some(false) } else { None }
}

/// How many heaps are too small: each is 16 bytes larger than the one before, and none is refused for anything else.
fn count_refusals(alloc: Global, kind: Kind) -> Option<usize> {
    for blocks in 0..96usize {
        let heap = LocalHeap::new(alloc, blocks * 16).ok()?;
        if is_made(&heap, kind)? {
            return Some(blocks);
        }
    }
    None
}

fn print_kind(rt: &(impl Print + AllocGlobal), name: &str, kind: Kind) -> io::Result<()> {
    match count_refusals(rt.alloc(), kind) {
        Some(count) => println!(rt; "{name}: refused by 22 on {count} heaps, and then made"),
        None => println!(rt; "{name}: not made"),
    }
}

/// Prints how each is refused.
pub(crate) fn print_makers(rt: &(impl Print + AllocGlobal)) -> io::Result<()> {
    print_kind(rt, "send queue", Kind::Queue)?;
    print_kind(rt, "reassembly", Kind::Inbox)?;
    print_kind(rt, "end", Kind::End)?;
    print_kind(rt, "end with one run", Kind::EndOfOneRun)?;
    print_kind(rt, "two ends", Kind::World)?;
    print_kind(rt, "two ends with a lifetime", Kind::WorldWithLifetime)?;
    print_kind(rt, "two ends with 2 and 4 runs", Kind::WorldWithRuns)
}
