//! One side: an end with its timers.
use crate::wire::{Packet, Wire, addr};
use kit_text::{LineError, push_bytes};
use std::alloc::Global;
use tcp_conn::{Arrival, EMIT_ROOM, Ending, Phase};
use tcp_driver::{Taken, Timer};
use tcp_end::End;

/// A side.
#[derive(Drop)]
pub(crate) struct Host {
    /// Its end.
    pub(crate) end: End<Global>,
    /// What the trace calls it.
    pub(crate) name: &'static str,
    /// The last byte of its address, 1 or 2, which is its port, too.
    pub(crate) number: u8,
    /// How many segments it has emitted.
    pub(crate) emitted: u64,
    /// How many bytes of its text its end has taken.
    pub(crate) given: u64,
}

/// The number of a phase in tcpcore.h, in the order of RFC 9293, 3.3.2.
fn phase_number(phase: Phase) -> u8 {
    match phase {
        Phase::Closed => 0,
        Phase::Listen => 1,
        Phase::SynSent => 2,
        Phase::SynReceived => 3,
        Phase::Established => 4,
        Phase::FinWait1 => 5,
        Phase::FinWait2 => 6,
        Phase::CloseWait => 7,
        Phase::Closing => 8,
        Phase::LastAck => 9,
        Phase::TimeWait => 10,
    }
}

/// The number of an ending in tcpcore.h.
fn ending_number(ending: Ending) -> u8 {
    match ending {
        Ending::NotEnded => 0,
        Ending::Orderly => 1,
        Ending::Reset => 2,
        Ending::Aborted => 3,
    }
}

/// The number of a timer in tcpcore.h.
fn timer_number(timer: Timer) -> u8 {
    match timer {
        Timer::Retransmit => 0,
        Timer::Reorder => 1,
        Timer::TimeWait => 2,
        Timer::User => 3,
    }
}

/// The number in tcpcore.h of what became of a segment.
fn arrival_number(arrival: Arrival) -> u8 {
    match arrival {
        Arrival::Processed => 0,
        Arrival::Malformed(fault) => fault.number(),
        Arrival::Dropped => 55,
        Arrival::NotMine => 56,
    }
}

/// The header of a segment (RFC 9293, 3.1).
fn header(bytes: &[u8]) -> &[u8] {
    let len = match bytes.get(12) {
        Some(offset) => usize::from(*offset >> 4) * 4,
        None => 0,
    };
    bytes.get(..len).unwrap_or(b"")
}

/// Puts all that is due onto the wire.
fn emit(now: u64, host: &mut Host, wire: &mut Wire, trace: &mut String) -> Result<(), LineError> {
    let mut out = [0u8; EMIT_ROOM];
    for _ in 0..10_000 {
        let Some(sent) = host.end.emit(now, wire.window, &mut out) else {
            break;
        };
        let bytes = &out[..sent.len];
        write!(
            trace,
            "{now} {} sent {} {} {} ",
            host.name, sent.len, sent.start, sent.count
        )?;
        push_bytes(wire.alloc, trace, header(bytes))?;
        let is_lost = wire.put(now, host.number, host.emitted, bytes)?;
        trace.push_str(if is_lost { " lost\n" } else { "\n" })?;
        host.emitted = host.emitted.saturating_add(1);
    }
    Ok(())
}

/// Appends what an end shows of itself.
fn show(now: u64, host: &Host, trace: &mut String) -> Result<(), LineError> {
    let end = &host.end.core().end;
    let (phase, ending) = (phase_number(end.phase()), ending_number(end.ending()));
    write!(trace, "{now} {} is {phase} {ending} ", host.name)?;
    write!(
        trace,
        "{} {} {} ",
        end.unread(),
        end.ordered(),
        end.released()
    )?;
    write!(
        trace,
        "{} {} {} ",
        end.room(),
        end.queued(),
        end.in_flight()
    )?;
    match host.end.poll_at() {
        Some(time) => writeln!(trace, "{time}")?,
        None => trace.push_str("-\n")?,
    }
    Ok(())
}

/// What is due goes out, and timers expire.
pub(crate) fn turn(
    now: u64,
    host: &mut Host,
    wire: &mut Wire,
    trace: &mut String,
) -> Result<(), LineError> {
    emit(now, host, wire, trace)?;
    for _ in 0..100 {
        let Some(timer) = host.end.timeout(now) else {
            break;
        };
        writeln!(trace, "{now} {} expired {}", host.name, timer_number(timer))?;
        emit(now, host, wire, trace)?;
    }
    show(now, host, trace)
}

/// A segment has come to a side.
pub(crate) fn take(
    now: u64,
    host: &mut Host,
    packet: &Packet,
    trace: &mut String,
) -> Result<(), LineError> {
    let (src, dst) = (addr(3u8.saturating_sub(host.number)), addr(host.number));
    let taken = host.end.arrive(now, src.0, dst.0, &packet.bytes);
    write!(trace, "{now} {} came ", host.name)?;
    match taken {
        Taken::Done(_, report) => {
            let (at_once, is_duplicate) = (u8::from(report.at_once), u8::from(report.is_duplicate));
            write!(
                trace,
                "{} {} ",
                arrival_number(report.arrival),
                report.acked
            )?;
            writeln!(
                trace,
                "{at_once} {is_duplicate} {}",
                u8::from(report.window_taken)
            )?;
        }
        Taken::EmitFirst => trace.push_str("58 0 0 0 0\n")?,
        Taken::Withheld => trace.push_str("59 0 0 0 0\n")?,
    }
    Ok(())
}
