//! Each allocation in turn is refused, on heaps with 16 bytes more each time: in making a queue, a reassembly, an end
//! and a world, in `solo` and `read_script`, in a step on each kind of event, and in a run. Where making is refused it
//! is by 22. A refused step is 34, changes nothing that can be observed, and with memory has the outcome that it would
//! have had at first. A run stops after the events that it did, and continues with memory. Each input line is an event,
//! which is stepped after a handshake with text that each side sent.
#![tactic(auto)]

mod given;
mod heaps;
mod makers;
mod runs;
mod scripts;
mod seen;
mod steps;
mod streams;

use given::Given;
use kit_io::{Counted, read_all};
use kit_script::read_script;
use kit_text::Lines;
use std::io;
use std::process::ExitCode;
use tcp_conn::{Config, DEFAULT_LIMIT};
use tcp_replay::{Event, Side};
use tcp_wire::{Addr, Seq};

/// The Config of an end.
pub(crate) const CONFIG: Config = Config {
    addr: Addr([10, 0, 0, 2]),
    port: 2,
    isn: Seq(5000),
    mss: 1460,
    send_capacity: 64,
    recv_capacity: 64,
    window_shift: None,
    sack: true,
    limit: DEFAULT_LIMIT,
};

/// The events before an event: B has text to read, A text to send, and a segment of B is on its way.
pub(crate) const BASE: &str = "\
config A send 64
config A recv 64
config B send 64
config B recv 64
listen B
connect A
emit A
deliver A 0
emit B
deliver B 0
emit A
deliver A 1
send A 616263
emit A
deliver A 2
send B 646566
emit B
send A 6768
";

/// The ends, the events before an event, and this event.
fn given_of(rt: &impl AllocGlobal, line: &str) -> Option<Given> {
    let mut text = String::new(rt.alloc());
    text.push_str(BASE).ok()?;
    text.push_str(line).ok()?;
    let script = read_script(rt.alloc(), &text).ok()?;
    Given::new(rt.alloc(), script).ok()
}

/// The ends and events before a call for which a script has no line.
fn given_acknowledge(rt: &impl AllocGlobal) -> Option<Given> {
    let mut given = given_of(rt, "")?;
    given.events.push(Event::Acknowledge(Side::B)).ok()?;
    Some(given)
}

fn print_step(rt: &(impl Print + AllocGlobal), line: &str, given: &Given) -> io::Result<()> {
    match steps::count_refusals(rt.alloc(), given) {
        Some(count) => println!(rt; "{line}: refused by 34 {count} times, and then as with memory"),
        None => println!(rt; "{line}: another answer"),
    }
}

fn print_run(rt: &(impl Print + AllocGlobal), given: &Given) -> io::Result<()> {
    match runs::count_stops(rt.alloc(), given) {
        Some(count) => println!(rt; "run: stopped by 34 {count} times, and went on with memory"),
        None => println!(rt; "run: another answer"),
    }
}

/// The event of a line, or the run of all events where the line is `run`.
fn print_line(rt: &(impl Print + AllocGlobal), line: &[u8]) -> io::Result<()> {
    let line = str::from_utf8(line).unwrap_or("?");
    let is_run = line == "run";
    let given = match line {
        "run" => given_of(rt, "receive B 10"),
        "acknowledge B" => given_acknowledge(rt),
        _ => given_of(rt, line),
    };
    match given {
        Some(given) if is_run => print_run(rt, &given),
        Some(given) => print_step(rt, line, &given),
        None => Err(io::Error::from(io::ErrorKind::InvalidData)),
    }
}

fn print_all(rt: &(impl Print + AllocGlobal), text: &[u8]) -> io::Result<()> {
    makers::print_makers(rt)?;
    streams::print_solo(rt)?;
    scripts::print_scripts(rt)?;
    let Ok(lines) = Lines::new(text) else {
        return Err(io::Error::from(io::ErrorKind::InvalidData));
    };
    for (_, line) in lines {
        print_line(rt, line)?;
    }
    Ok(())
}

fn main(rt: HostRuntime) -> ExitCode {
    let mut input = Counted::new(rt.stdin());
    let Ok(text) = read_all(rt.alloc(), &mut input) else {
        return ExitCode::FAILURE;
    };
    match print_all(&rt, &text) {
        Ok(()) => ExitCode::SUCCESS,
        Err(_) => ExitCode::FAILURE,
    }
}
