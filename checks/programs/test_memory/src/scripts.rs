//! `read_script` on heaps that grow by 16 bytes.
use crate::BASE;
use kit_script::{Script, ScriptError, read_script};
use linked_list_allocator::LocalHeap;
use std::alloc::Global;
use std::io;

/// A script of version 2, whose events are repeated.
const REPEATED: &str = "\
tcpkit 2
config life 4
repeat 3 send A 616263
repeat 2 emit A
receive B 10
";

/// Whether two scripts have the same version, lifetime, ends and numbers of runs, and as many events with the same turns.
fn is_same(script: &Script<&LocalHeap>, wanted: &Script) -> bool {
    script.version == wanted.version
        && script.life == wanted.life
        && script.a == wanted.a
        && script.b == wanted.b
        && script.runs_a == wanted.runs_a
        && script.runs_b == wanted.runs_b
        && script.events.len() == wanted.events.len()
        && script
            .events
            .iter()
            .zip(wanted.events.iter())
            .all(|(turn, other)| turn.times == other.times)
}

/// Whether the text is read on this heap as with memory, or refused because there is no memory; `None` where it is
/// refused for anything else, or read otherwise.
fn is_read(heap: &LocalHeap, text: &str, wanted: &Script) -> Option<bool> {
    match read_script(heap, text) {
        Ok(script) if is_same(&script, wanted) => Some(true),
        Err(ScriptError::NoMemory) => Some(false),
        _ => None,
    }
}

/// How many heaps are too small: each is 16 bytes larger than the one before.
fn count_refusals(alloc: Global, text: &str) -> Option<usize> {
    let wanted = read_script(alloc, text).ok()?;
    for blocks in 0..256usize {
        let heap = LocalHeap::new(alloc, blocks * 16).ok()?;
        if is_read(&heap, text, &wanted)? {
            return Some(blocks);
        }
    }
    None
}

fn print_script(rt: &(impl Print + AllocGlobal), name: &str, text: &str) -> io::Result<()> {
    match count_refusals(rt.alloc(), text) {
        Some(count) => println!(rt; "{name}: refused by 42 on {count} heaps, and then read"),
        None => println!(rt; "{name}: another answer"),
    }
}

/// Prints how each script is refused.
pub(crate) fn print_scripts(rt: &(impl Print + AllocGlobal)) -> io::Result<()> {
    print_script(rt, "script", BASE)?;
    print_script(rt, "script of version 2", REPEATED)
}
