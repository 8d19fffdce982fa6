//! Segments that expire (RFC 9293, 3.4).
ghost use Rattle.std.specs.Prelude.{◌≡◌};

use std::alloc::Global;
use std::io;
use tcp_conn::{Arrival, Config};
use tcp_replay::{Event, Outcome, Side, World};
use tcp_wire::{Addr, Seq};

/// The Config of the end at 10.0.0.`host`, port `host`.
fn config(host: u8, isn: u32) -> Config
    ensures port { result.port ≡ host }
    ensures isn { result.isn.0 ≡ isn }
{
    Config::new(Addr([10, 0, 0, host]), u16::from(host), Seq(isn))
}

/// The handshake: A's SYN is its segment 0, B's answer B's segment 0, A's acknowledgement its segment 1.
fn handshake() -> [Event; 8] {
    [
        Event::Listen(Side::B),
        Event::Connect(Side::A),
        Event::Emit(Side::A),
        Event::Deliver(Side::A, 0),
        Event::Emit(Side::B),
        Event::Deliver(Side::B, 0),
        Event::Emit(Side::A),
        Event::Deliver(Side::A, 1),
    ]
}

/// The events after the two sends. A's segment 3 moves RCV.NXT of B on to position 5, so that segment 2, at position 1,
/// is too old. B's segment 1 moves A's SND.UNA on to 5, so that B's segment 0, which acknowledges position 1, is too.
fn later() -> [Event; 6] {
    [
        Event::Emit(Side::A),
        Event::Deliver(Side::A, 3),
        Event::Deliver(Side::A, 2),
        Event::Emit(Side::B),
        Event::Deliver(Side::B, 1),
        Event::Deliver(Side::B, 0),
    ]
}

/// Applies an event, and prints its outcome.
fn print_step(rt: &impl Print, world: &mut World, event: &Event) -> io::Result<()> {
    match world.step(event) {
        Ok(Outcome::Sent(Ok(count))) => println!(rt; "took {count}"),
        Ok(Outcome::Emitted(Some(number))) => println!(rt; "emitted {number}"),
        Ok(Outcome::Arrived(Arrival::Processed)) => println!(rt; "processed"),
        Ok(Outcome::Arrived(Arrival::Dropped)) => println!(rt; "dropped"),
        Ok(_) => println!(rt; "done"),
        Err(refusal) => {
            let number = refusal.number();
            println!(rt; "refused {number}")
        }
    }
}

fn print_steps(rt: &impl Print, world: &mut World, events: &[Event]) -> io::Result<()> {
    for event in events {
        print_step(rt, world, event)?;
    }
    Ok(())
}

/// A text of A that arrives twice.
fn print_repeated(rt: &(impl Print + AllocGlobal), world: &mut World) -> io::Result<()> {
    let text = b"abc".to_vec(rt.alloc())?;
    let events = [
        Event::Send(Side::A, text),
        Event::Emit(Side::A),
        Event::Deliver(Side::A, 2),
        Event::Deliver(Side::A, 2),
    ];
    print_steps(rt, world, &events)
}

/// One byte more.
fn print_sent(rt: &(impl Print + AllocGlobal), world: &mut World) -> io::Result<()> {
    let text = b"d".to_vec(rt.alloc())?;
    print_step(rt, world, &Event::Send(Side::A, text))
}

fn print_all(rt: &(impl Print + AllocGlobal), world: &mut World) -> io::Result<()> {
    print_steps(rt, world, &handshake())?;
    print_repeated(rt, world)?;
    print_sent(rt, world)?;
    print_steps(rt, world, &later())
}

fn new_world(alloc: Global) -> Option<World> {
    World::with_lifetime(alloc, config(1, 1000), config(2, 5000), 4).ok()
}

/// Two ends whose segments live four positions; returns whether the outcome of each event was printed.
pub(crate) fn runs_with_lifetime(rt: &(impl Print + AllocGlobal)) -> bool {
    let Some(mut world) = new_world(rt.alloc()) else {
        return false;
    };
    print_all(rt, &mut world).is_ok()
}
