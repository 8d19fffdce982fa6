//! One scripted world of two ends with their timers, for tests: reads a script, and prints what happens. The bindings of the end
//! for other languages read the same script and print the same (c/bindings/test.sh).
//!
//! Times are microseconds, and `-` is none. `rules FIRST LEAST GREATEST GRANULARITY AFTER_SYN TIME_WAIT HANDSHAKE USER FIN_WAIT_2
//! SUSPECT_AFTER` are those of the worlds that follow. `new WAY MSS CAPACITY SHIFT RUNS` begins a world at time 0: A connects to B over
//! a wire that takes WAY. `lose SIDE FIRST COUNT` loses emissions of a side, counted from 0, and `late SIDE FIRST COUNT TIME` has them
//! come later. `window BYTES` is what both may have in flight. A call is `SIDE NAME TIME` or `SIDE NAME TIME COUNT`, and `run TIME`
//! is none: what happens by then happens first. Of two things at one time a segment comes before a timer expires, and A is before B.
#![tactic(auto)]

mod calls;
mod host;
mod wire;
mod words;
mod world;

use kit_io::{Counted, read_all};
use kit_text::{LineError, Lines};
use std::process::ExitCode;
use tcp_driver::Limits;
use tcp_timing::Rules;
use words::{first_number, first_word};
use world::{Times, World, add_fate, call, go_on, new_world, read_times, turn_both};

/// What a line says happens.
fn answer_line(
    world: &mut World,
    word: &[u8],
    words: &[u8],
    trace: &mut String,
) -> Result<(), LineError> {
    match word {
        b"lose" => add_fate(world, words, true),
        b"late" => add_fate(world, words, false),
        b"window" => {
            let (window, _) = first_number(words)?;
            world.wire.window = window;
            Ok(())
        }
        b"run" => {
            let (time, _) = first_number(words)?;
            go_on(world, time, trace)
        }
        side => call(world, side, words, trace),
    }
}

/// All that happens, a line each.
fn trace_of(rt: &impl AllocGlobal, text: &[u8]) -> Result<String, LineError> {
    let mut trace = String::new(rt.alloc());
    let mut times = Times {
        rules: Rules::standard(),
        limits: Limits::standard(),
    };
    let mut world = new_world(rt.alloc(), times, b"0 1460 1000 - 1")?;
    let lines = Lines::new(text).map_err(|_| LineError::BadForm)?;
    for (_, line) in lines {
        let (word, words) = first_word(line);
        match word {
            b"rules" => times = read_times(words)?,
            b"new" => {
                world = new_world(rt.alloc(), times, words)?;
                trace.push_str("new\n")?;
                turn_both(&mut world, &mut trace)?;
            }
            _ => answer_line(&mut world, word, words, &mut trace)?,
        }
    }
    Ok(trace)
}

fn main(rt: HostRuntime) -> ExitCode {
    let mut input = Counted::new(rt.stdin());
    let Ok(text) = read_all(rt.alloc(), &mut input) else {
        return ExitCode::from(2);
    };
    match trace_of(&rt, &text) {
        Ok(trace) => match print!(rt; "{trace}") {
            Ok(()) => ExitCode::from(0),
            Err(_) => ExitCode::from(2),
        },
        Err(_) => ExitCode::from(2),
    }
}
