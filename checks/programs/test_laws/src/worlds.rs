//! Two ends and every segment between them as one value, driven by lists of events: an orderly connection, a run that
//! stops at a segment that nobody emitted, a call that is refused, an end that can't be made; limits of streams,
//! segments that expire in a world with a lifetime of four positions, and a stream over the end of the sequence
//! numbers.

mod events;
mod lifetime;
mod runs;
mod stream;

use std::mem::size_of;
use tcp_conn::TimeWait;
use tcp_replay::every_run_is_safe;

/// Runs the lists; returns whether what became of each was printed.
pub(crate) fn shows_runs(rt: &(impl Print + AllocGlobal)) -> bool {
    every_run_is_safe();
    let is_small = size_of::<TimeWait>() <= 64;
    println!(rt; "a TIME-WAIT record has at most 64 bytes: {is_small}").is_ok()
        && runs::runs_all(rt)
        && stream::print_limits(rt).is_ok()
        && lifetime::runs_with_lifetime(rt)
        && stream::print_transfer(rt).is_ok()
}
