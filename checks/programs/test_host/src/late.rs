//! TIME-WAIT records, and strays.

use std::alloc::{AllocError, Global};
use tcp_conn::{EMIT_ROOM, RESET_LEN};
use tcp_driver::Timer;
use tcp_host::{Arrived, Host, NotRetired, Place, Socket};
use tcp_table::Id;

use crate::{CLIENT, Ends, SERVER, carry, connects, served};

/// All that one host has due goes to the other, at time 0: the length of the last segment, which is left in `last`.
fn passes(from: &mut Ends, src: [u8; 4], to: &mut Ends, last: &mut [u8]) -> usize {
    let mut out = [0u8; EMIT_ROOM];
    let mut len = 0;
    for _ in 0..8 {
        let Some((_, sent)) = from.emit(0, u64::MAX, &mut out) else {
            return len;
        };
        if let Some(sent) = sent {
            len = sent.len;
            last[..len].copy_from_slice(&out[..len]);
            let _ = to.arrive(0, src, sent.to, &last[..len]);
        }
    }
    len
}

/// Whether an end retires, and why not.
fn retires(host: &mut Ends, id: Id) -> &'static str {
    match host.retire(id) {
        Ok(_) => "retired",
        Err(NotRetired::Gone) => "gone",
        Err(NotRetired::IsActive) => "active",
        Err(NotRetired::HasRecord) => "has a record",
        Err(NotRetired::NoMemory) => "no memory",
    }
}

/// When a host has to be told the time.
fn polls(host: &Ends, answers: &mut String) -> Result<(), AllocError> {
    match host.poll_at() {
        Some(time) => write!(answers, "next {time}\n"),
        None => answers.push_str("next -\n"),
    }
}

/// What became of a segment that comes from the server, and what answers it.
fn comes(host: &mut Ends, now: u64, bytes: &[u8], answers: &mut String) -> Result<(), AllocError> {
    match host.arrive(now, SERVER, CLIENT, bytes) {
        Arrived::Late(slot, Some(_)) => write!(answers, "late for {slot}, ")?,
        Arrived::Late(slot, None) => write!(answers, "withheld at {slot}, ")?,
        Arrived::Taken(slot, _) => write!(answers, "taken by {slot}, ")?,
        Arrived::Listening(slot) => write!(answers, "heard by {slot}, ")?,
        Arrived::Full(slot) => write!(answers, "dropped by {slot}, ")?,
        Arrived::Stray => answers.push_str("stray, ")?,
        Arrived::Short => answers.push_str("short, ")?,
    }
    let mut out = [0u8; EMIT_ROOM];
    for _ in 0..4 {
        match host.emit(now, u64::MAX, &mut out) {
            Some((Place::Record(slot), Some(sent))) => {
                write!(answers, "record {slot} sends {} with flags {}, ", sent.len, out[13])?
            }
            Some((Place::End(slot), Some(_))) => write!(answers, "{slot} sends, ")?,
            Some(_) => {}
            None => return answers.push_str("-\n"),
        }
    }
    answers.push_str("no end of turns\n")
}

/// Who is told the time.
fn tells(host: &mut Ends, now: u64, answers: &mut String) -> Result<(), AllocError> {
    match host.timeout(now) {
        Some((Place::Record(slot), Some(Timer::TimeWait))) => write!(answers, "record {slot} is over\n"),
        Some(_) => answers.push_str("an end\n"),
        None => answers.push_str("nobody\n"),
    }
}

/// The reset that answers a stray: its length and its flags, or `-`.
fn strays(
    host: &mut Ends,
    now: u64,
    src: [u8; 4],
    dst: [u8; 4],
    bytes: &[u8],
    answers: &mut String,
) -> Result<(), AllocError> {
    let mut out = [0u8; RESET_LEN];
    match host.stray(now, src, dst, bytes, &mut out) {
        Some(len) => write!(answers, "{len} bytes with flags {}\n", out[13]),
        None => answers.push_str("-\n"),
    }
}

/// Two connections; the client closes the first, and then its server does. The client's end is in TIME-WAIT, for four minutes, and
/// retires; the other one doesn't. The server's FIN comes again to the record after a second, which answers by an acknowledgement
/// (flags 16), and TIME-WAIT begins anew (RFC 9293, 3.10.7.4). A reset is withheld (RFC 1337). Behind TIME-WAIT the FIN is a
/// stray's, and a reset without an acknowledgement (flags 4) at the number that it acknowledges answers it (3.10.7.1), once in ten
/// milliseconds. None answers what is for an end. What acknowledges draws one from a host that only listens there, as behind a
/// restart (3.10.7.2, second).
pub(crate) fn rests(alloc: Global, socket: Socket, answers: &mut String) -> Result<(), AllocError> {
    let mut a: Ends = Host::new_in(alloc);
    let mut b: Ends = Host::new_in(alloc);
    let _ = b.listen(socket, 0, 8);
    let (Some(first), Some(second)) = (connects(alloc, &mut a, 1001), connects(alloc, &mut a, 1002)) else {
        return Err(AllocError);
    };
    let mut told = String::new(alloc);
    carry(alloc, &mut a, CLIENT, &mut b, &mut told)?;
    carry(alloc, &mut b, SERVER, &mut a, &mut told)?;
    carry(alloc, &mut a, CLIENT, &mut b, &mut told)?;
    let mut fin = [0u8; EMIT_ROOM];
    let _ = a.close(0, first);
    let _ = passes(&mut a, CLIENT, &mut b, &mut fin);
    let _ = passes(&mut b, SERVER, &mut a, &mut fin);
    if let Some(id) = b.find(&served(1001)).and_then(|slot| b.id(slot)) {
        let _ = b.close(0, id);
    }
    let len = passes(&mut b, SERVER, &mut a, &mut fin);
    let mut last = [0u8; EMIT_ROOM];
    let _ = passes(&mut a, CLIENT, &mut b, &mut last);
    write!(answers, "{}, ", retires(&mut a, first))?;
    write!(answers, "{}, ", retires(&mut a, first))?;
    write!(answers, "{}\n", retires(&mut a, second))?;
    polls(&a, answers)?;
    comes(&mut a, 1_000_000, &fin[..len], answers)?;
    polls(&a, answers)?;
    let mut reset = fin;
    reset[13] = 4;
    comes(&mut a, 2_000_000, &reset[..len], answers)?;
    tells(&mut a, 240_999_999, answers)?;
    tells(&mut a, 241_000_000, answers)?;
    polls(&a, answers)?;
    comes(&mut a, 241_000_000, &fin[..len], answers)?;
    strays(&mut a, 241_000_000, SERVER, CLIENT, &fin[..len], answers)?;
    strays(&mut a, 241_009_999, SERVER, CLIENT, &fin[..len], answers)?;
    strays(&mut a, 241_010_000, SERVER, CLIENT, &fin[..len], answers)?;
    let len = passes(&mut a, CLIENT, &mut b, &mut last);
    write!(answers, "{len}\n")?;
    let _ = a.send(241_010_000, second, b"abc");
    let len = passes(&mut a, CLIENT, &mut b, &mut last);
    strays(&mut b, 0, CLIENT, SERVER, &last[..len], answers)?;
    let mut restarted: Ends = Host::new_in(alloc);
    let _ = restarted.listen(socket, 0, 8);
    strays(&mut restarted, 0, CLIENT, SERVER, &last[..len], answers)?;
    last[1] = 7;
    strays(&mut b, 0, CLIENT, SERVER, &last[..len], answers)
}
