//! Two hosts of real ends over a wire that loses nothing and takes no time: each segment, and what became of it. Then a host
//! whose segments go nowhere, at the last time of all, and one whose ends and listeners go, with what their handles find.
#![tactic(auto)]

mod late;

use late::rests;
use std::alloc::{AllocError, Global};
use std::process::ExitCode;
use tcp_conn::{Config, EMIT_ROOM, Endpoint, Received};
use tcp_driver::{Limits, Timer};
use tcp_connection::{Connection, Policy};
use tcp_congestion::Reno;
use tcp_end::{End, Wired, connect, listen};
use tcp_flow::Flow;
use tcp_host::{Arrived, Host, Pair, Place, Socket, pair_of};
use tcp_table::Id;
use tcp_timing::Rules;
use tcp_wire::{Addr, Seq};

/// A host whose listeners keep a number.
type Ends = Host<End<Global>, u8, Global>;

/// A host of connections.
type Connections = Host<Connection<Wired<Global>, Reno>, u8, Global>;

/// The client's address and the server's.
const CLIENT: [u8; 4] = [10, 0, 0, 1];

const SERVER: [u8; 4] = [10, 0, 0, 2];

/// The server's port.
const PORT: u16 = 80;

/// Puts an end under its pair, where nobody has that.
fn put(host: &mut Ends, pair: Pair, end: End<Global>) -> Option<Id> {
    if host.find(&pair).is_some() {
        return None;
    }
    host.open(pair, end).ok()
}

/// The client connects from a port.
fn connects(alloc: Global, host: &mut Ends, port: u16) -> Option<Id> {
    let local = Socket { addr: CLIENT, port };
    let peer = Socket {
        addr: SERVER,
        port: PORT,
    };
    let pair = Pair { local, peer };
    let end = Endpoint::new(alloc, Config::new(Addr(CLIENT), port, Seq(1000))).ok()?;
    let rules = Rules::standard();
    let end = connect(end, Addr(SERVER), PORT, rules, Limits::standard(), 0).ok()?;
    put(host, pair, end)
}

/// The host opens an end for what a segment asks of the listener in a slot.
fn opens(alloc: Global, host: &mut Ends, listener: usize, pair: Pair) -> Option<Id> {
    let config = Config::new(Addr(pair.local.addr), pair.local.port, Seq(5000));
    let end = Endpoint::new(alloc, config).ok()?;
    let end = listen(end, Rules::standard(), Limits::standard(), 0).ok()?;
    let listener = host.listener_id(listener)?;
    if host.find(&pair).is_some() {
        return None;
    }
    host.admit(listener, pair, end).ok()
}

/// A segment comes to a host: what became of it. For a listener an end is opened, and it comes again.
fn takes(
    alloc: Global,
    host: &mut Ends,
    src: [u8; 4],
    dst: [u8; 4],
    bytes: &[u8],
    answers: &mut String,
) -> Result<(), AllocError> {
    for _ in 0..2 {
        match host.arrive(0, src, dst, bytes) {
            Arrived::Taken(slot, _) => return write!(answers, "taken by {slot}\n"),
            Arrived::Late(slot, Some(_)) => return write!(answers, "late for {slot}\n"),
            Arrived::Late(_, None) => return answers.push_str("withheld\n"),
            Arrived::Full(listener) => return write!(answers, "dropped by {listener}\n"),
            Arrived::Stray => return answers.push_str("stray\n"),
            Arrived::Short => return answers.push_str("short\n"),
            Arrived::Listening(listener) => {
                write!(answers, "heard by {listener}, ")?;
                if let Some(pair) = pair_of(src, dst, bytes) {
                    let _ = opens(alloc, host, listener, pair);
                }
            }
        }
    }
    Ok(())
}

/// All that one host has due goes to the other.
fn carry(
    alloc: Global,
    from: &mut Ends,
    src: [u8; 4],
    to: &mut Ends,
    answers: &mut String,
) -> Result<(), AllocError> {
    let mut out = [0u8; EMIT_ROOM];
    for _ in 0..8 {
        let Some((place, sent)) = from.emit(0, u64::MAX, &mut out) else {
            return answers.push_str("-\n");
        };
        if let Some(sent) = sent {
            match place {
                Place::End(slot) => write!(answers, "from {slot}: ")?,
                Place::Record(slot) => write!(answers, "from record {slot}: ")?,
            }
            let bytes = out.get(..sent.len).unwrap_or(&[]);
            takes(alloc, to, src, sent.to, bytes, answers)?;
        }
    }
    Ok(())
}

/// A user reads from an end.
fn reads(host: &mut Ends, pair: &Pair, answers: &mut String) -> Result<(), AllocError> {
    let mut out = [0u8; 16];
    let id = host.find(pair).and_then(|slot| host.id(slot));
    let Some(id) = id else {
        return answers.push_str("gone\n");
    };
    match host.receive(0, id, &mut out) {
        Some(Ok(Received::Bytes(count))) => write!(answers, "reads {count}\n"),
        _ => answers.push_str("reads nothing\n"),
    }
}

/// The pair of the server's end for the client's port.
fn served(port: u16) -> Pair {
    let local = Socket {
        addr: SERVER,
        port: PORT,
    };
    let peer = Socket { addr: CLIENT, port };
    Pair { local, peer }
}

/// Two connections are opened; the first carries three bytes, and its segment is lost by nobody but goes unanswered.
fn speak(
    alloc: Global,
    a: &mut Ends,
    b: &mut Ends,
    answers: &mut String,
) -> Result<(), AllocError> {
    let first = connects(alloc, a, 1001);
    let _ = connects(alloc, a, 1002);
    carry(alloc, a, CLIENT, b, answers)?;
    carry(alloc, b, SERVER, a, answers)?;
    carry(alloc, a, CLIENT, b, answers)?;
    if let Some(id) = first {
        let _ = a.send(0, id, b"abc");
    }
    carry(alloc, a, CLIENT, b, answers)?;
    reads(b, &served(1001), answers)?;
    reads(b, &served(1002), answers)
}

/// What is for nobody, and the timer of what wasn't acknowledged.
fn wait(alloc: Global, a: &mut Ends, b: &mut Ends, answers: &mut String) -> Result<(), AllocError> {
    takes(alloc, b, CLIENT, SERVER, &[3, 233, 0, 81], answers)?;
    takes(alloc, b, CLIENT, SERVER, &[3, 233, 0], answers)?;
    match a.poll_at() {
        Some(time) => write!(answers, "{time}\n")?,
        None => answers.push_str("-\n")?,
    }
    if a.timeout(999_999).is_none() {
        answers.push_str("early\n")?;
    }
    match a.timeout(1_000_000) {
        Some((Place::End(slot), Some(Timer::Retransmit))) => write!(answers, "{slot} again\n"),
        _ => answers.push_str("-\n"),
    }
}

/// What all have due goes nowhere, and how many segments that is.
fn sends_all(now: u64, host: &mut Ends, answers: &mut String) -> Result<(), AllocError> {
    let mut out = [0u8; EMIT_ROOM];
    let mut count = 0u64;
    for _ in 0..16 {
        match host.emit(now, u64::MAX, &mut out) {
            Some((_, Some(_))) => count += 1,
            Some((_, None)) => {}
            None => return write!(answers, "{count} segments\n"),
        }
    }
    answers.push_str("no end of turns\n")
}

/// Whose turn is next, one after another, and whether it sends.
fn takes_turns(host: &mut Ends, answers: &mut String) -> Result<(), AllocError> {
    let mut out = [0u8; EMIT_ROOM];
    for _ in 0..8 {
        match host.next_turn() {
            Some(next) => write!(answers, "next {next}: ")?,
            None => answers.push_str("next nobody: ")?,
        }
        match host.emit(0, u64::MAX, &mut out) {
            Some((Place::End(slot), Some(_))) => write!(answers, "{slot} sends\n")?,
            Some((Place::End(slot), None)) => write!(answers, "{slot} has nothing\n")?,
            Some((Place::Record(_), _)) => answers.push_str("a record\n")?,
            None => return answers.push_str("-\n"),
        }
    }
    Ok(())
}

/// At the last time of all: how many timers expire until none does, and when the next one is due.
fn expires(host: &mut Ends, answers: &mut String) -> Result<(), AllocError> {
    for count in 0u64..16 {
        if host.timeout(u64::MAX).is_none() {
            write!(answers, "{count} expire, next ")?;
            return match host.poll_at() {
                Some(time) => write!(answers, "{time}\n"),
                None => answers.push_str("-\n"),
            };
        }
    }
    answers.push_str("no end of timers\n")
}

/// Two ends whose SYNs nobody answers. Each timer expires once, and isn't due before both SYNs have gone out again; then it is
/// due behind the last time, 2^62, by twice the first timeout of a second.
fn ends_of_time(alloc: Global, answers: &mut String) -> Result<(), AllocError> {
    let mut host: Ends = Host::new_in(alloc);
    let _ = connects(alloc, &mut host, 1001);
    let _ = connects(alloc, &mut host, 1002);
    takes_turns(&mut host, answers)?;
    expires(&mut host, answers)?;
    sends_all(u64::MAX, &mut host, answers)?;
    expires(&mut host, answers)
}

/// An end goes, and another one takes its slot: the first one's handle finds nothing.
fn gone(alloc: Global, answers: &mut String) -> Result<(), AllocError> {
    let mut host: Ends = Host::new_in(alloc);
    let Some(first) = connects(alloc, &mut host, 1001) else {
        return Err(AllocError);
    };
    let was_there = host.remove(first).is_some();
    let is_there = host.end(first.slot).is_some();
    write!(answers, "{was_there} {is_there} {}\n", host.poll_at().is_some())?;
    let Some(second) = connects(alloc, &mut host, 1002) else {
        return Err(AllocError);
    };
    let is_slot_again = first.slot == second.slot;
    let is_number_again = first.number == second.number;
    write!(answers, "{is_slot_again} {is_number_again}\n")?;
    let is_sent = host.send(0, first, b"abc").is_some();
    let is_closed = host.close(0, first).is_some();
    let is_given_up = host.abort(0, first).is_some();
    let is_removed = host.remove(first).is_some();
    write!(answers, "{is_sent} {is_closed} {is_given_up} {is_removed}\n")?;
    let is_handle = host.id(second.slot) == Some(second);
    let is_removed = host.remove(second).is_some();
    write!(answers, "{is_handle} {is_removed}\n")
}

/// Appends what a listener keeps, or `-`.
fn show_kept(kept: Option<u8>, answers: &mut String) -> Result<(), AllocError> {
    match kept {
        Some(kept) => write!(answers, "keeps {kept}\n"),
        None => answers.push_str("-\n"),
    }
}

/// A listener goes, and another one takes its slot and socket: the first one's handle finds nothing.
fn unheard(alloc: Global, socket: Socket, answers: &mut String) -> Result<(), AllocError> {
    let mut host: Ends = Host::new_in(alloc);
    let Ok(first) = host.listen(socket, 7, 1) else {
        return Err(AllocError);
    };
    show_kept(host.listener(first.slot).copied(), answers)?;
    show_kept(host.unlisten(first), answers)?;
    show_kept(host.listener(first.slot).copied(), answers)?;
    let Ok(second) = host.listen(socket, 8, 1) else {
        return Err(AllocError);
    };
    show_kept(host.unlisten(first), answers)?;
    show_kept(host.listener(second.slot).copied(), answers)?;
    let is_slot = host.find_listener(&socket) == Some(first.slot);
    let is_handle = host.listener_id(second.slot) == Some(second);
    write!(answers, "{is_slot} {is_handle}\n")
}

/// A host of connections, to which a client sends three bytes: their acknowledgement waits for 40 ms (RFC 9293, 3.8.6.3), which is
/// the host's deadline. At that time the end is told, though no timer of it expires, and it isn't told again; then the
/// acknowledgement goes out (flags 16), and nothing is left to wait for. The user reads, and sends an answer at once.
fn waits(alloc: Global, answers: &mut String) -> Result<(), AllocError> {
    let mut a: Ends = Host::new_in(alloc);
    let mut b: Connections = Host::new_in(alloc);
    let Some(first) = connects(alloc, &mut a, 1001) else {
        return Err(AllocError);
    };
    let config = Config::new(Addr(SERVER), PORT, Seq(5000));
    let end = Endpoint::new(alloc, config).map_err(|_| AllocError)?;
    let end = listen(end, Rules::standard(), Limits::standard(), 0).map_err(|_| AllocError)?;
    let end = Connection::new(Flow::new(end, Reno::new(1460), 0), Policy::standard());
    let Ok(served) = b.open(served(1001), end) else {
        return Err(AllocError);
    };
    let mut out = [0u8; EMIT_ROOM];
    for round in 0..3 {
        if round == 2 {
            let _ = a.send(0, first, b"abc");
        }
        while let Some((_, sent)) = a.emit(0, u64::MAX, &mut out) {
            if let Some(sent) = sent {
                let _ = b.arrive(0, CLIENT, sent.to, &out[..sent.len]);
            }
        }
        while let Some((_, sent)) = b.emit(0, u64::MAX, &mut out) {
            if let Some(sent) = sent {
                let _ = a.arrive(0, SERVER, sent.to, &out[..sent.len]);
            }
        }
    }
    write!(answers, "{:?}\n", b.poll_at())?;
    write!(answers, "{:?}\n", b.timeout(39_999))?;
    write!(answers, "{:?}\n", b.timeout(40_000))?;
    write!(answers, "{:?} {:?}\n", b.timeout(40_000), b.poll_at())?;
    match b.emit(40_000, u64::MAX, &mut out) {
        Some((Place::End(slot), Some(sent))) => write!(answers, "{slot} sends {} with flags {}\n", sent.len, out[13])?,
        _ => answers.push_str("-\n")?,
    }
    let is_silent = matches!(b.emit(40_000, u64::MAX, &mut out), Some((_, None)));
    write!(answers, "{is_silent} {:?} {:?}\n", b.emit(40_000, u64::MAX, &mut out), b.poll_at())?;
    let mut text = [0u8; 8];
    write!(answers, "{:?}\n", b.receive(40_000, served, &mut text))?;
    let _ = b.send(40_000, served, b"d");
    match b.emit(40_000, u64::MAX, &mut out) {
        Some((Place::End(slot), Some(sent))) => write!(answers, "{slot} sends {}\n", sent.len),
        _ => answers.push_str("-\n"),
    }
}

/// What the user of a listener accepts.
fn accepts(host: &mut Ends, listener: Id, answers: &mut String) -> Result<(), AllocError> {
    match host.accept(listener) {
        Some(id) => write!(answers, "accepts {}\n", id.slot),
        None => answers.push_str("accepts none\n"),
    }
}

/// A listener with a backlog of two, and three clients. The third SYN is dropped, and answered by nothing, no reset either. The
/// second client's handshake is over first, so that it is accepted first; then there is room for the third, whose SYN comes
/// again behind its timeout. The first one's end is removed in its handshake, which makes room for a fourth.
fn queues(alloc: Global, socket: Socket, answers: &mut String) -> Result<(), AllocError> {
    let mut b: Ends = Host::new_in(alloc);
    let Ok(listener) = b.listen(socket, 0, 2) else {
        return Err(AllocError);
    };
    let mut clients: [Ends; 3] = [Host::new_in(alloc), Host::new_in(alloc), Host::new_in(alloc)];
    for (client, port) in clients.iter_mut().zip([1001u16, 1002, 1003]) {
        let _ = connects(alloc, client, port);
        carry(alloc, client, CLIENT, &mut b, answers)?;
    }
    accepts(&mut b, listener, answers)?;
    let mut out = [0u8; EMIT_ROOM];
    while let Some((_, sent)) = b.emit(0, u64::MAX, &mut out) {
        if let Some(sent) = sent {
            for client in &mut clients {
                let _ = client.arrive(0, SERVER, sent.to, &out[..sent.len]);
            }
        }
    }
    carry(alloc, &mut clients[1], CLIENT, &mut b, answers)?;
    carry(alloc, &mut clients[2], CLIENT, &mut b, answers)?;
    let _ = clients[2].timeout(1_000_000);
    carry(alloc, &mut clients[2], CLIENT, &mut b, answers)?;
    accepts(&mut b, listener, answers)?;
    accepts(&mut b, listener, answers)?;
    let _ = clients[2].timeout(3_000_000);
    carry(alloc, &mut clients[2], CLIENT, &mut b, answers)?;
    let first = b.find(&served(1001)).and_then(|slot| b.id(slot));
    let is_removed = first.and_then(|id| b.remove(id)).is_some();
    write!(answers, "{is_removed}\n")?;
    let mut fourth: Ends = Host::new_in(alloc);
    let _ = connects(alloc, &mut fourth, 1004);
    carry(alloc, &mut fourth, CLIENT, &mut b, answers)
}

/// All rows.
fn rows(alloc: Global) -> Result<String, AllocError> {
    let mut answers = String::new(alloc);
    let mut a: Ends = Host::new_in(alloc);
    let mut b: Ends = Host::new_in(alloc);
    let socket = Socket {
        addr: SERVER,
        port: PORT,
    };
    if b.find_listener(&socket).is_none() {
        let _ = b.listen(socket, 0, 8);
    }
    speak(alloc, &mut a, &mut b, &mut answers)?;
    wait(alloc, &mut a, &mut b, &mut answers)?;
    ends_of_time(alloc, &mut answers)?;
    gone(alloc, &mut answers)?;
    unheard(alloc, socket, &mut answers)?;
    rests(alloc, socket, &mut answers)?;
    waits(alloc, &mut answers)?;
    queues(alloc, socket, &mut answers)?;
    Ok(answers)
}

fn main(rt: HostRuntime) -> ExitCode {
    let Ok(answers) = rows(rt.alloc()) else {
        return ExitCode::from(2);
    };
    match print!(rt; "{answers}") {
        Ok(()) => ExitCode::from(0),
        Err(_) => ExitCode::from(2),
    }
}
