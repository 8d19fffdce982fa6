//! Two ends driven by lists of events: an orderly connection, a run that stops at a segment that nobody emitted, a call
//! that is refused, and an end that can't be made.
ghost use Rattle.std.specs.Prelude.{◌≡◌};

use crate::worlds::events::{connection, missing_segment};
use std::alloc::Global;
use std::io;
use tcp_conn::Config;
use tcp_replay::{Event, Outcome, Side, World};
use tcp_wire::{Addr, Seq};

/// The Config of the end at 10.0.0.`host`, port `host`.
fn config(host: u8, isn: u32, mss: u16) -> Config
    ensures port { result.port ≡ host }
    ensures isn { result.isn.0 ≡ isn }
    ensures mss { result.mss ≡ mss }
{
    let defaults = Config::new(Addr([10, 0, 0, host]), u16::from(host), Seq(isn));
    Config { mss, ..defaults }
}

/// Runs events, and prints where the run stops.
fn print_run(rt: &impl Print, world: &mut World, events: &[Event]) -> io::Result<()> {
    let count = events.len();
    match world.run(events) {
        Ok(()) => println!(rt; "{count} events"),
        Err((index, refusal)) => println!(rt; "stopped at event {index}: {refusal}"),
    }
}

/// Prints how many bytes of this side were acknowledged, and how many came to it in order.
fn print_progress(rt: &impl Print, world: &World, side: Side) -> io::Result<()> {
    let released = world.endpoint(side).released();
    let ordered = world.endpoint(side).ordered();
    println!(rt; "  {released} bytes acknowledged, {ordered} bytes in order")
}

/// Prints what the side of this name did and got.
fn print_side(rt: &impl Print, name: &str, world: &World, side: Side) -> io::Result<()> {
    let accepted = str::from_utf8(world.accepted(side)).unwrap_or("?");
    let delivered = str::from_utf8(world.delivered(side)).unwrap_or("?");
    println!(rt; "{name} sent \"{accepted}\" and was handed \"{delivered}\"")?;
    let count = world.count(side);
    let first = world.sent(side, 0).map_or(0, <[u8]>::len);
    let is_one_more = world.sent(side, count).is_some();
    println!(rt; "  {count} segments, the first of {first} bytes, one more {is_one_more}")?;
    print_progress(rt, world, side)?;
    let phase = world.endpoint(side).phase();
    let ending = world.endpoint(side).ending();
    let closed = world.closed(side);
    let ended = world.ended(side);
    println!(rt;
        "  {phase} {ending}, closed by its user {closed}, end of stream handed over {ended}"
    )
}

/// A connection from its first event to its last, as one list.
fn run_connection(rt: &(impl Print + AllocGlobal), world: &mut World) -> io::Result<()> {
    let a = b"abc".to_vec(rt.alloc())?;
    let b = b"def".to_vec(rt.alloc())?;
    let events = connection(rt.alloc(), a, b)?;
    print_run(rt, world, &events)
}

/// A connection, and both sides after it.
fn print_orderly_connection(rt: &(impl Print + AllocGlobal), world: &mut World) -> io::Result<()> {
    run_connection(rt, world)?;
    print_side(rt, "A", world, Side::A)?;
    print_side(rt, "B", world, Side::B)
}

/// A run that stops.
fn run_missing_segment(rt: &(impl Print + AllocGlobal), world: &mut World) -> io::Result<()> {
    let events = missing_segment(rt.alloc())?;
    print_run(rt, world, &events)
}

/// A run that stops, and a call that is refused.
fn print_refusals(rt: &(impl Print + AllocGlobal), world: &mut World) -> io::Result<()> {
    run_missing_segment(rt, world)?;
    print_side(rt, "A", world, Side::A)?;
    let event: Event = Event::Connect(Side::A);
    match world.step(&event) {
        Ok(Outcome::Call(Err(refusal))) => println!(rt; "connect: {refusal}"),
        _ => Ok(()),
    }
}

/// Two new ends.
fn new_world(alloc: Global) -> Option<World> {
    World::new(alloc, config(1, 1000, 1460), config(2, 5000, 1460)).ok()
}

/// Two new ends, and an orderly connection between them; whether it was printed.
fn runs_orderly_connection(rt: &(impl Print + AllocGlobal)) -> bool {
    let Some(mut world) = new_world(rt.alloc()) else {
        return false;
    };
    print_orderly_connection(rt, &mut world).is_ok()
}

/// Two other ends, a run that stops and a call that is refused; whether they were printed.
fn runs_refusals(rt: &(impl Print + AllocGlobal)) -> bool {
    let Some(mut world) = new_world(rt.alloc()) else {
        return false;
    };
    print_refusals(rt, &mut world).is_ok()
}

/// An end that can't be made; whether its fault was printed.
fn runs_fault(rt: &(impl Print + AllocGlobal)) -> bool {
    match World::new(rt.alloc(), config(1, 1000, 1460), config(2, 5000, 63)) {
        Ok(_) => false,
        Err(fault) => println!(rt; "{fault}").is_ok(),
    }
}

/// All of these; whether they were printed.
pub(crate) fn runs_all(rt: &(impl Print + AllocGlobal)) -> bool {
    runs_orderly_connection(rt) && runs_refusals(rt) && runs_fault(rt)
}
