//! Worlds made by hand, one of each kind that is hard to settle. A opens, B listens.
use crate::settling::configs::{LEAST_LIFE, Shape, plain};
use crate::settling::events::{opening, text};
use std::alloc::{AllocError, Global};
use tcp_conn::{Config, Timer};
use tcp_replay::{Event, Side};
use tcp_wire::Seq;

/// How many there are.
pub(crate) const COUNT: u32 = 9;

/// What is sent at once on a long way, in bytes, in how many segments, and how often.
const PIECE: usize = 65_000;

const SEGMENTS: usize = 45;

const PIECES: usize = 33;

/// Adds these events to a list.
pub(crate) fn add<const N: usize>(
    alloc: Global,
    events: &mut Vec<Event>,
    more: [Event; N],
) -> Result<(), AllocError> {
    let mut more = Vec::from_array(alloc, more)?;
    events.append(&mut more)
}

/// The handshake, up to SYN-RECEIVED of B.
fn half_open(alloc: Global) -> Result<Vec<Event>, AllocError> {
    let mut events = Vec::new(alloc);
    add(alloc, &mut events, opening(Side::A))?;
    Ok(events)
}

/// The whole handshake: A's segments 0 and 1, B's segment 0.
pub(crate) fn open(alloc: Global) -> Result<Vec<Event>, AllocError> {
    let mut events = half_open(alloc)?;
    let more = [Event::Emit(Side::A), Event::Deliver(Side::A, 1)];
    add(alloc, &mut events, more)?;
    Ok(events)
}

/// A sends `len` bytes, of which one segment comes to B, and B's answer comes back.
fn fill(alloc: Global, events: &mut Vec<Event>, len: usize) -> Result<(), AllocError> {
    let more = [
        Event::Send(Side::A, text(alloc, 1, len)?),
        Event::Emit(Side::A),
        Event::Deliver(Side::A, 2),
        Event::Emit(Side::B),
        Event::Deliver(Side::B, 1),
    ];
    add(alloc, events, more)
}

/// B has four bytes and no room for the other six.
pub(crate) fn told_shut(alloc: Global) -> Result<Vec<Event>, AllocError> {
    let mut events = open(alloc)?;
    fill(alloc, &mut events, 10)?;
    Ok(events)
}

/// B has room for 20 of 40 bytes, and advertises 0; ten wait.
fn rounded_to_shut(alloc: Global) -> Result<Vec<Event>, AllocError> {
    let mut events = open(alloc)?;
    fill(alloc, &mut events, 20)?;
    let more = [Event::Send(Side::A, text(alloc, 2, 10)?)];
    add(alloc, &mut events, more)?;
    Ok(events)
}

/// A sends 34 bytes, each in a segment of its own, and every second one comes to B, which reports it.
fn held_in_runs(alloc: Global) -> Result<Vec<Event>, AllocError> {
    let mut events = open(alloc)?;
    for number in 1..18 {
        let more = [
            Event::Send(Side::A, text(alloc, 1, 1)?),
            Event::Emit(Side::A),
            Event::Send(Side::A, text(alloc, 2, 1)?),
            Event::Emit(Side::A),
            Event::Deliver(Side::A, 2 * number + 1),
            Event::Emit(Side::B),
            Event::Deliver(Side::B, number),
        ];
        add(alloc, &mut events, more)?;
    }
    Ok(events)
}

/// B has four bytes and no room for the FIN.
fn fin_shut_out(alloc: Global) -> Result<Vec<Event>, AllocError> {
    let mut events = open(alloc)?;
    fill(alloc, &mut events, 4)?;
    let more = [
        Event::Close(Side::A),
        Event::Emit(Side::A),
        Event::Deliver(Side::A, 3),
    ];
    add(alloc, &mut events, more)?;
    Ok(events)
}

/// B closes with text unsent, A doesn't.
fn one_closed(alloc: Global) -> Result<Vec<Event>, AllocError> {
    let mut events = open(alloc)?;
    let more = [
        Event::Send(Side::B, text(alloc, 1, 5)?),
        Event::Close(Side::B),
    ];
    add(alloc, &mut events, more)?;
    Ok(events)
}

/// Both send and close, and all of it is lost.
fn both_lost(alloc: Global) -> Result<Vec<Event>, AllocError> {
    let mut events = open(alloc)?;
    let more = [
        Event::Send(Side::A, text(alloc, 1, 5)?),
        Event::Send(Side::B, text(alloc, 2, 6)?),
        Event::Close(Side::A),
        Event::Close(Side::B),
        Event::Emit(Side::A),
        Event::Emit(Side::B),
        Event::Emit(Side::A),
        Event::Emit(Side::B),
    ];
    add(alloc, &mut events, more)?;
    Ok(events)
}

/// A's acknowledgement of B's SYN is lost, and B has sent and closed by then.
fn syn_unknown(alloc: Global) -> Result<Vec<Event>, AllocError> {
    let mut events = half_open(alloc)?;
    let more = [
        Event::Emit(Side::A),
        Event::Send(Side::B, text(alloc, 1, 5)?),
        Event::Close(Side::B),
    ];
    add(alloc, &mut events, more)?;
    Ok(events)
}

/// Each has the other's byte, neither was acknowledged, and what B has to send again waits.
pub(crate) fn untold(alloc: Global) -> Result<Vec<Event>, AllocError> {
    let mut events = open(alloc)?;
    let more = [
        Event::Send(Side::A, text(alloc, 1, 1)?),
        Event::Send(Side::B, text(alloc, 2, 1)?),
        Event::Emit(Side::A),
        Event::Emit(Side::B),
        Event::Deliver(Side::A, 2),
        Event::Deliver(Side::B, 1),
        Event::Timer(Side::B, Timer::Retransmit),
    ];
    add(alloc, &mut events, more)?;
    Ok(events)
}

/// A's next segments come to B, from this number on.
fn carry(alloc: Global, events: &mut Vec<Event>, first: usize) -> Result<(), AllocError> {
    for number in first..first.saturating_add(SEGMENTS) {
        let more = [Event::Emit(Side::A), Event::Deliver(Side::A, number)];
        add(alloc, events, more)?;
    }
    Ok(())
}

/// A sends more than the lifetime of a segment, and B answers; the last answer is lost.
fn expired(alloc: Global) -> Result<Vec<Event>, AllocError> {
    let mut events = open(alloc)?;
    for piece in 0..PIECES {
        let back = [Event::Emit(Side::B), Event::Deliver(Side::B, piece)];
        add(alloc, &mut events, back)?;
        let there = [Event::Send(Side::A, text(alloc, 1, PIECE)?)];
        add(alloc, &mut events, there)?;
        carry(alloc, &mut events, piece * SEGMENTS + 2)?;
        add(alloc, &mut events, [Event::Receive(Side::B, PIECE)])?;
    }
    Ok(events)
}

/// Ends with large buffers; or B takes four bytes; or 40, and both advertise their windows in steps of 16,384.
pub(crate) fn shape_of(number: u32) -> Shape {
    let (recv_capacity, window_shift) = match number {
        0 | 3 => (4, None),
        1 => (40, Some(14)),
        _ => (65_536, None),
    };
    let a = Config {
        isn: Seq(u32::MAX),
        window_shift,
        ..plain(1)
    };
    let b = Config {
        recv_capacity,
        window_shift,
        ..plain(2)
    };
    Shape {
        life: LEAST_LIFE,
        a,
        b,
    }
}

/// The world of this number: its shape, and its events.
pub(crate) fn given(alloc: Global, number: u32) -> Result<(Shape, Vec<Event>), AllocError> {
    let events = match number {
        0 => told_shut(alloc)?,
        1 => rounded_to_shut(alloc)?,
        2 => held_in_runs(alloc)?,
        3 => fin_shut_out(alloc)?,
        4 => one_closed(alloc)?,
        5 => both_lost(alloc)?,
        6 => syn_unknown(alloc)?,
        7 => untold(alloc)?,
        _ => expired(alloc)?,
    };
    Ok((shape_of(number), events))
}
