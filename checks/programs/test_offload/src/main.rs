//! A program of the tests: two ends whose segments are lent or summed by a device, beside two ends that copy and sum
//! themselves. Each emission and each reading is the same.
#![tactic(auto)]

mod device;

use device::{complete, spoil};
use std::alloc::{AllocError, Global};
use std::process::ExitCode;
use tcp_conn::{Config, ConfigError, EMIT_ROOM, Endpoint, HEADER_ROOM, Received};
use tcp_wire::{Addr, Seq};

const TEXT: &[u8] = b"one line of text, and a second one behind it";

/// An end at 10.0.0.`host`, port `host`, with buffers of 50 bytes, over whose ends a text soon continues.
fn new_end(alloc: Global, host: u8) -> Result<Endpoint, ConfigError> {
    let mut config = Config::new(Addr([10, 0, 0, host]), u16::from(host), Seq(4_294_967_290));
    config.send_capacity = 50;
    config.recv_capacity = 50;
    Endpoint::new(alloc, config)
}

/// What `emit` would write, joined of the parts that are lent.
fn joined_parts(end: &mut Endpoint, bytes: &mut Vec<u8>) -> Result<(), AllocError> {
    let mut header = [0u8; HEADER_ROOM];
    bytes.clear();
    if let Some(parts) = end.parts(&mut header) {
        bytes.extend_from_slice(&header[..parts.header])?;
        bytes.extend_from_slice(parts.first)?;
        bytes.extend_from_slice(parts.second)?;
    }
    end.sent();
    Ok(())
}

/// What `emit` would write, summed by a device.
fn completed_emission(end: &mut Endpoint, bytes: &mut Vec<u8>) -> Result<(), AllocError> {
    let mut room = [0u8; EMIT_ROOM];
    bytes.clear();
    if let Some((_, len)) = end.emit_partial(&mut room) {
        complete(&mut room[..len]);
        bytes.extend_from_slice(&room[..len])?;
    }
    Ok(())
}

/// Two ends that did the same.
#[derive(Drop)]
struct Twins {
    plain: Endpoint,
    lent: Endpoint,
}

/// Carries all that is due from one to the other, and returns whether each emission was the same.
fn carry(alloc: Global, from: &mut Twins, to: &mut Twins) -> Result<bool, AllocError> {
    let mut room = [0u8; EMIT_ROOM];
    let mut bytes = Vec::new(alloc);
    let src = from.plain.config().addr;
    for turn in 0..20 {
        let Some((dst, len)) = from.plain.emit(&mut room) else {
            break;
        };
        if turn % 2 == 0 {
            joined_parts(&mut from.lent, &mut bytes)?;
        } else {
            completed_emission(&mut from.lent, &mut bytes)?;
        }
        if bytes.as_slice() != &room[..len] {
            return Ok(false);
        }
        to.plain.arrive(src, dst, &room[..len]);
        spoil(&mut bytes);
        to.lent.arrive_vouched(src, dst, &bytes);
    }
    Ok(from.lent.pending().is_none())
}

/// Reads all that came, the one by a copy and the other where it lies; how many bytes, if both are the same.
fn read(twins: &mut Twins) -> Option<usize> {
    let mut out = [0u8; 64];
    let count = match twins.plain.receive(&mut out) {
        Ok(Received::Bytes(count)) => count,
        _ => 0,
    };
    let lent = twins.lent.peek().ok()?;
    let front = lent.front.len();
    let same = front <= 64 && lent.back.len() <= 64 - front;
    if !same || lent.front != &out[..front] || lent.back != &out[front..front + lent.back.len()] {
        return None;
    }
    let consumed = twins.lent.consume(64).ok()?;
    if consumed == count { Some(count) } else { None }
}

/// Two ends of this host.
fn new_twins(alloc: Global, host: u8) -> Option<Twins> {
    match (new_end(alloc, host), new_end(alloc, host)) {
        (Ok(plain), Ok(lent)) => Some(Twins { plain, lent }),
        _ => None,
    }
}

/// Opens both connections; whether no call was refused.
fn open(a: &mut Twins, b: &mut Twins) -> bool {
    let peer = Addr([10, 0, 0, 2]);
    let listens = b.plain.listen().is_ok() && b.lent.listen().is_ok();
    listens && a.plain.connect(peer, 2).is_ok() && a.lent.connect(peer, 2).is_ok()
}

/// Carries and reads what there is, both ways; how many bytes came, if all was the same.
fn take_turn(alloc: Global, a: &mut Twins, b: &mut Twins) -> Option<usize> {
    let (Ok(true), Ok(true)) = (carry(alloc, a, b), carry(alloc, b, a)) else {
        return None;
    };
    read(b)
}

/// Sends the text once, and takes turns; how many bytes came.
fn send_text(alloc: Global, a: &mut Twins, b: &mut Twins) -> Option<usize> {
    if a.plain.send(TEXT).is_err() || a.lent.send(TEXT).is_err() {
        return None;
    }
    let mut total: usize = 0;
    for _ in 0..4 {
        total = total.saturating_add(take_turn(alloc, a, b)?);
    }
    Some(total)
}

/// Sends the text three times from one to the other, over the ends of their buffers; how many bytes came, if all was
/// the same.
fn talk(alloc: Global, a: &mut Twins, b: &mut Twins) -> Option<usize> {
    if !open(a, b) {
        return None;
    }
    let mut total: usize = 0;
    for _ in 0..3 {
        total = total.saturating_add(send_text(alloc, a, b)?);
    }
    Some(total)
}

fn main(rt: HostRuntime) -> ExitCode {
    let (Some(mut a), Some(mut b)) = (new_twins(rt.alloc(), 1), new_twins(rt.alloc(), 2)) else {
        return ExitCode::FAILURE;
    };
    let Some(total) = talk(rt.alloc(), &mut a, &mut b) else {
        return ExitCode::FAILURE;
    };
    let _ = println!(rt; "each emission and each reading was the same, and {total} bytes came");
    ExitCode::SUCCESS
}
