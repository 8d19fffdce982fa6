//! `solo` on heaps that grow by 16 bytes.
use crate::CONFIG;
use linked_list_allocator::LocalHeap;
use std::alloc::{AllocError, Global};
use std::io;
use tcp_conn::ConfigError;
use tcp_replay::{SoloError, SoloEvent, SoloLog, StepError, solo, solo_in};
use tcp_wire::Addr;

const PEER: Addr = Addr([10, 0, 0, 1]);

/// A SYN with seq 1000, and text with seq 1001 that acknowledges 5001.
const SYN: [u8; 28] = [
    0, 1, 0, 2, 0, 0, 3, 0xe8, 0, 0, 0, 0, 0x70, 2, 0xff, 0xff, 0x6b, 0x32, 0, 0, 2, 4, 5, 0xb4, 1,
    1, 4, 2,
];

const TEXT: [u8; 23] = [
    0, 1, 0, 2, 0, 0, 3, 0xe9, 0, 0, 0x13, 0x89, 0x50, 0x18, 0xff, 0xff, 0xbf, 0xef, 0, 0, 0x61,
    0x62, 0x63,
];

fn arrival(alloc: Global, bytes: &[u8]) -> Result<SoloEvent, AllocError> {
    Ok(SoloEvent::Arrive(PEER, CONFIG.addr, bytes.to_vec(alloc)?))
}

/// A handshake, a text each way, and a close.
fn events(alloc: Global) -> Result<[SoloEvent; 9], AllocError> {
    Ok([
        SoloEvent::Listen,
        arrival(alloc, &SYN)?,
        SoloEvent::Emit,
        arrival(alloc, &TEXT)?,
        SoloEvent::Receive(10),
        SoloEvent::Send(b"defg".to_vec(alloc)?),
        SoloEvent::Emit,
        SoloEvent::Close,
        SoloEvent::Emit,
    ])
}

/// How often `solo` was refused in either way.
#[derive(Clone, Copy, Default)]
struct Refusals {
    no_end: usize,
    at_event: usize,
    /// The event of the last refusal.
    last: usize,
}

/// Whether two logs are the same.
fn is_same(log: &SoloLog<&LocalHeap>, wanted: &SoloLog) -> bool {
    log.accepted.as_slice() == wanted.accepted.as_slice()
        && log.delivered.as_slice() == wanted.delivered.as_slice()
        && log.outcomes.as_slice() == wanted.outcomes.as_slice()
        && log.emitted.len() == wanted.emitted.len()
        && log.ended == wanted.ended
        && log.endpoint.phase() == wanted.endpoint.phase()
}

/// Whether the log is the wanted one on this heap; otherwise counts the refusal. `None` where it is another log or
/// refusal, or an earlier event than on a smaller heap.
fn try_solo(
    heap: &LocalHeap,
    events: &[SoloEvent],
    wanted: &SoloLog,
    refusals: &mut Refusals,
) -> Option<bool> {
    match solo_in(heap, CONFIG, events) {
        Ok(log) if is_same(&log, wanted) => return Some(true),
        Err(SoloError::Config(ConfigError::NoMemory)) => {
            refusals.no_end = refusals.no_end.saturating_add(1);
        }
        Err(SoloError::At(index, StepError::NoMemory)) if index >= refusals.last => {
            refusals.last = index;
            refusals.at_event = refusals.at_event.saturating_add(1);
        }
        _ => return None,
    }
    Some(false)
}

fn count_refusals(alloc: Global, events: &[SoloEvent], wanted: &SoloLog) -> Option<Refusals> {
    let mut refusals = Refusals::default();
    for blocks in 0..256usize {
        let heap = LocalHeap::new(alloc, blocks * 16).ok()?;
        if try_solo(&heap, events, wanted, &mut refusals)? {
            return Some(refusals);
        }
    }
    None
}

fn refusals_of(alloc: Global) -> Option<Refusals> {
    let events = events(alloc).ok()?;
    let wanted = solo(alloc, CONFIG, &events).ok()?;
    count_refusals(alloc, &events, &wanted)
}

/// Prints how one end alone is refused.
pub(crate) fn print_solo(rt: &(impl Print + AllocGlobal)) -> io::Result<()> {
    match refusals_of(rt.alloc()) {
        Some(count) => println!(rt;
            "one end alone: refused by 22 on {} heaps, by 34 on {}, last at event {}, and then the whole log",
            count.no_end, count.at_event, count.last
        ),
        None => println!(rt; "one end alone: another answer"),
    }
}
