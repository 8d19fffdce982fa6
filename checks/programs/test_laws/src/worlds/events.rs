//! Lists of events between an end A, which connects, and an end B, which listens.
use std::alloc::{AllocError, Global};
use tcp_conn::Timer;
use tcp_replay::{Event, Side};

fn handshake() -> [Event; 8] {
    [
        Event::Listen(Side::B),
        Event::Connect(Side::A),
        Event::Emit(Side::A),
        Event::Deliver(Side::A, 0),
        Event::Emit(Side::B),
        Event::Deliver(Side::B, 0),
        Event::Emit(Side::A),
        Event::Deliver(Side::A, 1),
    ]
}

/// A text each way after the handshake.
fn exchange(a: Vec<u8>, b: Vec<u8>) -> [Event; 10] {
    [
        Event::Send(Side::A, a),
        Event::Send(Side::B, b),
        Event::Emit(Side::A),
        Event::Deliver(Side::A, 2),
        Event::Emit(Side::B),
        Event::Deliver(Side::B, 1),
        Event::Receive(Side::B, 10),
        Event::Receive(Side::A, 10),
        Event::Emit(Side::A),
        Event::Deliver(Side::A, 3),
    ]
}

/// An orderly close after them.
fn orderly_close() -> [Event; 12] {
    [
        Event::Close(Side::A),
        Event::Emit(Side::A),
        Event::Deliver(Side::A, 4),
        Event::Emit(Side::B),
        Event::Deliver(Side::B, 2),
        Event::Receive(Side::B, 10),
        Event::Close(Side::B),
        Event::Emit(Side::B),
        Event::Deliver(Side::B, 3),
        Event::Emit(Side::A),
        Event::Deliver(Side::A, 5),
        Event::Timer(Side::A, Timer::TimeWait),
    ]
}

/// Adds these events to a list.
fn add<const N: usize>(
    alloc: Global,
    events: &mut Vec<Event>,
    more: [Event; N],
) -> Result<(), AllocError> {
    let mut more = Vec::from_array(alloc, more)?;
    events.append(&mut more)
}

/// A whole connection: the handshake, a text each way and an orderly close.
pub(crate) fn connection(alloc: Global, a: Vec<u8>, b: Vec<u8>) -> Result<Vec<Event>, AllocError> {
    let mut events = Vec::new(alloc);
    add(alloc, &mut events, handshake())?;
    add(alloc, &mut events, exchange(a, b))?;
    add(alloc, &mut events, orderly_close())?;
    Ok(events)
}

/// The handshake, and a segment that nobody emitted.
pub(crate) fn missing_segment(alloc: Global) -> Result<Vec<Event>, AllocError> {
    let mut events = Vec::new(alloc);
    add(alloc, &mut events, handshake())?;
    add(alloc, &mut events, [Event::Deliver(Side::A, 2)])?;
    Ok(events)
}
