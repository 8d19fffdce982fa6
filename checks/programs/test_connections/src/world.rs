//! Two sides and the wire between them.
use crate::calls::answer_call;
use crate::host::{Host, take, turn};
use crate::wire::{Fate, Wire, addr, earlier};
use crate::words::{first_number, first_word, time_of};
use kit_text::LineError;
use std::alloc::Global;
use tcp_conn::{Config, Endpoint};
use tcp_driver::Limits;
use tcp_end::{End, connect, listen};
use tcp_reasm::MAX_RUNS;
use tcp_timing::Rules;
use tcp_wire::Seq;

/// How both sides keep their times.
#[derive(Clone, Copy, Debug)]
pub(crate) struct Times {
    pub(crate) rules: Rules,
    pub(crate) limits: Limits,
}

/// The rules and limits of a line.
pub(crate) fn read_times(words: &[u8]) -> Result<Times, LineError> {
    let (first, words) = first_number(words)?;
    let (least, words) = first_number(words)?;
    let (greatest, words) = first_number(words)?;
    let (granularity, words) = first_number(words)?;
    let (after_syn, words) = first_number(words)?;
    let (time_wait, words) = first_number(words)?;
    let (handshake, words) = first_number(words)?;
    let (user, words) = first_number(words)?;
    let (fin_wait_2, words) = first_number(words)?;
    let (suspect_after, _) = first_number(words)?;
    Ok(Times {
        rules: Rules {
            first,
            least,
            greatest,
            granularity,
            after_syn,
        },
        limits: Limits {
            time_wait,
            suspect_after: u32::try_from(suspect_after).unwrap_or(u32::MAX),
            handshake: time_of(handshake),
            user: time_of(user),
            fin_wait_2: time_of(fin_wait_2),
            guard: Limits::standard().guard,
            is_patient: false,
        },
    })
}

/// Both sides, and the wire.
#[derive(Drop)]
pub(crate) struct World {
    pub(crate) now: u64,
    pub(crate) a: Host,
    pub(crate) b: Host,
    pub(crate) wire: Wire,
}

/// What both ends are made with.
#[derive(Clone, Copy, Debug)]
struct Making {
    mss: u16,
    capacity: usize,
    window_shift: Option<u8>,
    runs: usize,
}

/// An end that is CLOSED, of this side.
fn new_end(alloc: Global, number: u8, isn: u32, making: Making) -> Result<Endpoint, LineError> {
    let config = Config {
        mss: making.mss,
        send_capacity: making.capacity,
        recv_capacity: making.capacity,
        window_shift: making.window_shift,
        ..Config::new(addr(number), u16::from(number), Seq(isn))
    };
    Endpoint::with_runs(alloc, config, making.runs.max(1).min(MAX_RUNS)).map_err(
        |_| LineError::BadForm,
    )
}

/// A connects to B, which listens, at time 0.
fn new_ends(
    alloc: Global,
    times: Times,
    making: Making,
) -> Result<(End<Global>, End<Global>), LineError> {
    if !times.rules.are_sound() {
        return Err(LineError::BadForm);
    }
    let a = new_end(alloc, 1, 4_294_967_290, making)?;
    let b = new_end(alloc, 2, 5000, making)?;
    let Ok(a) = connect(a, addr(2), 2, times.rules, times.limits, 0) else {
        return Err(LineError::BadForm);
    };
    let Ok(b) = listen(b, times.rules, times.limits, 0) else {
        return Err(LineError::BadForm);
    };
    Ok((a, b))
}

/// The world of a line.
pub(crate) fn new_world(alloc: Global, times: Times, words: &[u8]) -> Result<World, LineError> {
    let (way, words) = first_number(words)?;
    let (mss, words) = first_number(words)?;
    let (capacity, words) = first_number(words)?;
    let (shift, words) = first_number(words)?;
    let (runs, _) = first_number(words)?;
    let making = Making {
        mss: u16::try_from(mss).unwrap_or(0),
        capacity: capacity as usize,
        window_shift: time_of(shift).map(|shift| u8::try_from(shift).unwrap_or(u8::MAX)),
        runs: runs as usize,
    };
    let (a, b) = new_ends(alloc, times, making)?;
    Ok(World {
        now: 0,
        a: new_host("A", 1, a),
        b: new_host("B", 2, b),
        wire: Wire::new(alloc, way),
    })
}

/// A side that has sent nothing yet.
fn new_host(name: &'static str, number: u8, end: End<Global>) -> Host {
    Host {
        end,
        name,
        number,
        emitted: 0,
        given: 0,
    }
}

/// What is due of both sides goes out, and their timers expire.
pub(crate) fn turn_both(world: &mut World, trace: &mut String) -> Result<(), LineError> {
    let now = world.now;
    turn(now, &mut world.a, &mut world.wire, trace)?;
    turn(now, &mut world.b, &mut world.wire, trace)
}

/// What has come is handed in.
fn deliver(world: &mut World, trace: &mut String) -> Result<(), LineError> {
    let now = world.now;
    for _ in 0..10_000 {
        let Some(packet) = world.wire.come(now) else {
            break;
        };
        if packet.from == 1 {
            take(now, &mut world.b, &packet, trace)?;
        } else {
            take(now, &mut world.a, &packet, trace)?;
        }
    }
    Ok(())
}

/// Time goes on, and what happens by then is done.
pub(crate) fn go_on(world: &mut World, until: u64, trace: &mut String) -> Result<(), LineError> {
    for _ in 0..100_000 {
        let deadline = earlier(world.a.end.poll_at(), world.b.end.poll_at());
        match earlier(world.wire.next_arrival(), deadline) {
            Some(next) if next <= until => world.now = world.now.max(next),
            _ => break,
        }
        deliver(world, trace)?;
        turn_both(world, trace)?;
    }
    world.now = world.now.max(until);
    Ok(())
}

/// The number of the side that a word names.
fn side_number(word: &[u8]) -> Result<u8, LineError> {
    match word {
        b"A" => Ok(1),
        b"B" => Ok(2),
        _ => Err(LineError::BadForm),
    }
}

/// What becomes of some emissions is said.
pub(crate) fn add_fate(world: &mut World, words: &[u8], is_lost: bool) -> Result<(), LineError> {
    let (side, words) = first_word(words);
    let (first, words) = first_number(words)?;
    let (count, words) = first_number(words)?;
    let later = if is_lost {
        None
    } else {
        let (later, _) = first_number(words)?;
        Some(later)
    };
    let from = side_number(side)?;
    world.wire.add_fate(Fate {
        from,
        first,
        count,
        later,
    })
}

/// A side's user makes a call, and what is due then goes out.
fn call_now(
    now: u64,
    host: &mut Host,
    wire: &mut Wire,
    name: &[u8],
    words: &[u8],
    trace: &mut String,
) -> Result<(), LineError> {
    write!(trace, "{now} {} ", host.name)?;
    trace.push_str(str::from_utf8(name).map_err(|_| LineError::BadForm)?)?;
    trace.push_str(" ")?;
    answer_call(wire.alloc, host, now, name, words, trace)?;
    turn(now, host, wire, trace)
}

/// A side's user makes a call at a time: its name, the time and what it counts are the words.
pub(crate) fn call(
    world: &mut World,
    side: &[u8],
    words: &[u8],
    trace: &mut String,
) -> Result<(), LineError> {
    let (name, words) = first_word(words);
    let (time, words) = first_number(words)?;
    go_on(world, time, trace)?;
    let now = world.now;
    match side_number(side)? {
        1 => call_now(now, &mut world.a, &mut world.wire, name, words, trace),
        _ => call_now(now, &mut world.b, &mut world.wire, name, words, trace),
    }
}
