//! tcpcore.h: its structs, whose fields c/tcpcore/layout.py writes and the tests below compare with the C compiler's, and its calls.
use core::ffi::c_void;
use core::ptr;

pub(crate) const VERSION: u32 = 23;
pub(crate) const END_SIZE: usize = 416;
pub(crate) const CONNECTION_SIZE: usize = 1216;
pub(crate) const RECOVERY_MEMORY: usize = 2847;
pub(crate) const MARK_SIZE: usize = 8;
pub(crate) const HELD_SIZE: usize = 16;
pub(crate) const UNIT: usize = 16;
pub(crate) const STRUCT_ROOM: usize = 32;

#[repr(C)]
pub struct End {
    pub opaque: [u64; 3],
}

#[repr(C)]
#[derive(Clone, Copy, Debug, Default, PartialEq, Eq)]
pub struct Addr {
    pub byte: [u8; 4],
}

#[repr(C)]
#[derive(Clone, Copy)]
pub struct Config {
    pub addr: Addr,
    pub port: u16,
    pub mss: u16,
    pub isn: u32,
    pub unnamed_12: [u8; 4],
    pub send_capacity: u64,
    pub recv_capacity: u64,
    pub limit: u64,
    pub window_shift: u8,
    pub scales: u8,
    pub sack: u8,
    pub unnamed_43: [u8; 1],
    pub runs: u16,
    pub unnamed_46: [u8; 2],
}

#[repr(C)]
#[derive(Clone, Copy, Default)]
pub struct Status {
    pub phase: u32,
    pub ending: u32,
    pub unread: u64,
    pub released: u64,
    pub ordered: u64,
    pub snd_una: u64,
    pub rcv_position: u64,
    pub room: u64,
    pub queued: u64,
    pub in_flight: u64,
    pub mss: u32,
    pub own_shift: u8,
    pub peer_shift: u8,
    pub scaling: u8,
    pub sack: u8,
    pub snd_wnd: u32,
    pub rcv_wnd: u32,
    pub snd_nxt: u64,
    pub closing: u32,
    pub finished: u32,
    pub reserved: [u32; 6],
}

#[repr(C)]
#[derive(Clone, Copy, Default)]
pub struct Intake {
    pub guard: u32,
    pub is_vouched: u32,
    pub reserved: [u32; 6],
}

#[repr(C)]
#[derive(Clone, Copy, Default)]
pub struct ArriveReport {
    pub at_once: u32,
    pub rule: u32,
    pub acked: u64,
    pub brought: u32,
    pub is_duplicate: u32,
    pub window_taken: u32,
    pub reserved: [u32; 9],
}

#[repr(C)]
#[derive(Clone, Copy, Default)]
pub struct Transmit {
    pub to: Addr,
    pub kind: u32,
    pub length: u64,
    pub position: u64,
    pub count: u64,
    pub reserved: [u32; 8],
}

#[repr(C)]
#[derive(Clone, Copy, Default)]
pub struct Train {
    pub whole: Transmit,
    pub header: u64,
    pub each: u64,
    pub segments: u64,
    pub reserved: [u32; 10],
}

#[repr(C)]
pub struct Piece {
    pub at: *const c_void,
    pub length: usize,
}

impl Default for Piece {
    fn default() -> Piece {
        Piece { at: ptr::null(), length: 0 }
    }
}

#[repr(C)]
#[derive(Default)]
pub struct Lent {
    pub first: Piece,
    pub second: Piece,
    pub ends: u32,
    pub reserved: [u32; 7],
}

#[repr(C)]
#[derive(Default)]
pub struct Parts {
    pub to: Addr,
    pub header: u32,
    pub first: Piece,
    pub second: Piece,
    pub reserved: [u32; 6],
}

#[repr(C)]
#[derive(Clone, Debug, Default, PartialEq, Eq)]
pub struct TimeWait {
    pub mark: u32,
    pub addr: Addr,
    pub peer_addr: Addr,
    pub port: u16,
    pub peer_port: u16,
    pub snd_nxt: u32,
    pub rcv_nxt: u32,
    pub rcv_wnd: u32,
    pub reset_addr: Addr,
    pub reset_seq: u32,
    pub reset_ack: u32,
    pub reset_port: u16,
    pub shift: u8,
    pub ack: u8,
    pub reset: u16,
    pub ending: u16,
}

#[repr(C)]
pub struct Connection {
    pub opaque: [u64; 3],
}

#[repr(C)]
#[derive(Clone, Copy)]
pub struct ConnectionRules {
    pub first: u64,
    pub least: u64,
    pub greatest: u64,
    pub granularity: u64,
    pub after_syn: u64,
    pub time_wait: u64,
    pub handshake: u64,
    pub user: u64,
    pub fin_wait_2: u64,
    pub suspect_after: u32,
    pub guard: u32,
    pub reserved: [u32; 12],
}

#[repr(C)]
#[derive(Clone, Copy, Default)]
pub struct ConnectionSegment {
    pub length: u64,
    pub position: u64,
    pub count: u64,
    pub to: Addr,
    pub reserved: [u32; 9],
}

#[derive(Clone, Copy, Default)]
#[repr(C)]
pub struct Congestion {
    pub cwnd: u64,
    pub ssthresh: u64,
    pub smss: u64,
    pub congestion: u32,
    pub is_recovering: u32,
    pub reserved: [u32; 8],
}

#[derive(Clone, Copy, Default)]
#[repr(C)]
pub struct Policy {
    pub ack_delay: u64,
    pub override_timeout: u64,
    pub answer_interval: u64,
    pub nagle: u32,
    pub reserved: [u32; 9],
}

#[derive(Clone, Copy, Default)]
#[repr(C)]
pub struct KeepAlive {
    pub idle: u64,
    pub interval: u64,
    pub most: u32,
    pub reserved: [u32; 3],
}

extern "C" {
    pub fn tcpcore_new_at(end: *mut *mut End, config: *const Config, block: *mut c_void, length: usize) -> u32;
    pub fn tcpcore_room(config: *const Config) -> usize;
    pub fn tcpcore_free(end: *mut End) -> u32;
    pub fn tcpcore_connect(end: *mut End, addr: Addr, port: u16) -> u32;
    pub fn tcpcore_listen(end: *mut End) -> u32;
    pub fn tcpcore_send(end: *mut End, text: *const c_void, length: usize, taken: *mut usize) -> u32;
    pub fn tcpcore_receive(end: *mut End, out: *mut c_void, room: usize, count: *mut usize) -> u32;
    pub fn tcpcore_peek(end: *const End, lent: *mut Lent) -> u32;
    pub fn tcpcore_consume(end: *mut End, count: usize, taken: *mut usize) -> u32;
    pub fn tcpcore_acknowledge(end: *mut End) -> u32;
    pub fn tcpcore_close(end: *mut End) -> u32;
    pub fn tcpcore_abort(end: *mut End) -> u32;
    pub fn tcpcore_timer(end: *mut End, timer: u32) -> u32;
    pub fn tcpcore_arrive_with_at_once(end: *mut End, src: Addr, dst: Addr, bytes: *const c_void, length: usize, at_once: *mut u32) -> u32;
    pub fn tcpcore_arrive_with_report(
        end: *mut End,
        src: Addr,
        dst: Addr,
        bytes: *const c_void,
        length: usize,
        report: *mut ArriveReport,
    ) -> u32;
    pub fn tcpcore_arrive_vouched_with_report(
        end: *mut End,
        src: Addr,
        dst: Addr,
        bytes: *const c_void,
        length: usize,
        report: *mut ArriveReport,
    ) -> u32;
    pub fn tcpcore_arrive_by(
        end: *mut End,
        src: Addr,
        dst: Addr,
        bytes: *const c_void,
        length: usize,
        intake: *const Intake,
        report: *mut ArriveReport,
    ) -> u32;
    pub fn tcpcore_emit(end: *mut End, out: *mut c_void, room: usize, to: *mut Addr, length: *mut usize) -> u32;
    pub fn tcpcore_emit_acknowledgement(end: *mut End, out: *mut c_void, room: usize, to: *mut Addr, length: *mut usize) -> u32;
    pub fn tcpcore_resend_first(end: *mut End) -> u32;
    pub fn tcpcore_resend(end: *mut End, from: u64, to: u64) -> u32;
    pub fn tcpcore_emit_partial(end: *mut End, out: *mut c_void, room: usize, to: *mut Addr, length: *mut usize) -> u32;
    pub fn tcpcore_emit_train(end: *mut End, out: *mut c_void, room: usize, most: usize, train: *mut Train) -> u32;
    pub fn tcpcore_parts(end: *const End, header: *mut c_void, room: usize, parts: *mut Parts) -> u32;
    pub fn tcpcore_sent(end: *mut End) -> u32;
    pub fn tcpcore_transmit(end: *mut End, out: *mut c_void, room: usize, transmit: *mut Transmit) -> u32;
    pub fn tcpcore_next(end: *const End, next: *mut Transmit) -> u32;
    pub fn tcpcore_pending(end: *const End, due: *mut u32) -> u32;
    pub fn tcpcore_stray_reset(
        src: Addr,
        dst: Addr,
        bytes: *const c_void,
        length: usize,
        out: *mut c_void,
        room: usize,
        written: *mut usize,
    ) -> u32;
    pub fn tcpcore_timers(end: *const End, due: *mut u32) -> u32;
    pub fn tcpcore_peer(end: *const End, addr: *mut Addr, port: *mut u16) -> u32;
    pub fn tcpcore_status(end: *const End, status: *mut Status) -> u32;
    pub fn tcpcore_time_wait(end: *const End, time_wait: *mut TimeWait) -> u32;
    pub fn tcpcore_time_wait_arrive(time_wait: *mut TimeWait, src: Addr, dst: Addr, bytes: *const c_void, length: usize) -> u32;
    pub fn tcpcore_time_wait_timer(time_wait: *mut TimeWait, timer: u32) -> u32;
    pub fn tcpcore_time_wait_emit(time_wait: *mut TimeWait, out: *mut c_void, room: usize, to: *mut Addr, length: *mut usize) -> u32;
    pub fn tcpcore_time_wait_pending(time_wait: *const TimeWait, due: *mut u32) -> u32;
    pub fn tcpcore_time_wait_abort(time_wait: *mut TimeWait) -> u32;
    pub fn tcpcore_time_wait_status(time_wait: *const TimeWait, phase: *mut u32, ending: *mut u32) -> u32;
    pub fn tcpcore_connection_connect(
        connection: *mut Connection,
        config: *const Config,
        rules: *const ConnectionRules,
        addr: Addr,
        port: u16,
        now: u64,
        block: *mut c_void,
        length: usize,
    ) -> u32;
    pub fn tcpcore_connection_listen(
        connection: *mut Connection,
        config: *const Config,
        rules: *const ConnectionRules,
        now: u64,
        block: *mut c_void,
        length: usize,
    ) -> u32;
    pub fn tcpcore_connection_room(config: *const Config) -> usize;
    pub fn tcpcore_connection_free(connection: *mut Connection) -> u32;
    pub fn tcpcore_connection_poll_at(connection: *const Connection, at: *mut u64) -> u32;
    pub fn tcpcore_connection_timeout(connection: *mut Connection, now: u64, timer: *mut u32) -> u32;
    pub fn tcpcore_connection_arrive(
        connection: *mut Connection,
        now: u64,
        src: Addr,
        dst: Addr,
        bytes: *const c_void,
        length: usize,
        report: *mut ArriveReport,
    ) -> u32;
    pub fn tcpcore_connection_arrive_vouched(
        connection: *mut Connection,
        now: u64,
        src: Addr,
        dst: Addr,
        bytes: *const c_void,
        length: usize,
        report: *mut ArriveReport,
    ) -> u32;
    pub fn tcpcore_connection_emit(
        connection: *mut Connection,
        now: u64,
        window: u64,
        out: *mut c_void,
        room: usize,
        segment: *mut ConnectionSegment,
    ) -> u32;
    pub fn tcpcore_connection_emit_train(
        connection: *mut Connection,
        now: u64,
        window: u64,
        out: *mut c_void,
        room: usize,
        most: usize,
        train: *mut Train,
    ) -> u32;
    pub fn tcpcore_connection_send(connection: *mut Connection, now: u64, text: *const c_void, length: usize, taken: *mut usize) -> u32;
    pub fn tcpcore_connection_receive(connection: *mut Connection, now: u64, out: *mut c_void, room: usize, count: *mut usize) -> u32;
    pub fn tcpcore_connection_peek(connection: *const Connection, lent: *mut Lent) -> u32;
    pub fn tcpcore_connection_consume(connection: *mut Connection, now: u64, count: usize, taken: *mut usize) -> u32;
    pub fn tcpcore_connection_acknowledge(connection: *mut Connection, now: u64) -> u32;
    pub fn tcpcore_connection_close(connection: *mut Connection, now: u64) -> u32;
    pub fn tcpcore_connection_abort(connection: *mut Connection, now: u64) -> u32;
    pub fn tcpcore_connection_status(connection: *const Connection, status: *mut Status) -> u32;
    pub fn tcpcore_connection_peer(connection: *const Connection, addr: *mut Addr, port: *mut u16) -> u32;
    pub fn tcpcore_connection_set_user_timeout(connection: *mut Connection, limit: u64) -> u32;
    pub fn tcpcore_connection_resend_first(connection: *mut Connection, now: u64) -> u32;
    pub fn tcpcore_connection_resend(connection: *mut Connection, now: u64, from: u64, to: u64) -> u32;
    pub fn tcpcore_connection_set_congestion(connection: *mut Connection, congestion: u32) -> u32;
    pub fn tcpcore_connection_congestion(connection: *const Connection, congestion: *mut Congestion) -> u32;
    pub fn tcpcore_connection_set_policy(connection: *mut Connection, policy: *const Policy) -> u32;
    pub fn tcpcore_connection_set_recovery(connection: *mut Connection, now: u64, block: *mut c_void, length: usize) -> u32;
    pub fn tcpcore_connection_set_keep_alive(connection: *mut Connection, now: u64, rules: *const KeepAlive) -> u32;
    pub fn tcpcore_connection_set_pacing(connection: *mut Connection, is_paced: u32) -> u32;
    pub fn tcpcore_strerror(answer: u32) -> *const u8;
    pub fn tcpcore_version() -> u32;
    pub fn tcpcore_build() -> *const u8;
}

#[cfg(test)]
mod tests {
    //! Layouts and numbers are those that the C compiler gives.
    use super::*;
    use crate::reports::{BROUGHT, KINDS, RULES};
    use std::mem::size_of;
    use std::path::PathBuf;
    use std::process::Command;

    /// The places of fields, and the size, of a C struct.
    macro_rules! places {
        ($type:ty, $c:literal, $($field:ident),*) => {{
            let value = std::mem::MaybeUninit::<$type>::zeroed();
            let at = value.as_ptr();
            let mut expressions = vec![format!("sizeof({})", $c)];
            let mut found = vec![size_of::<$type>()];
            $(
                expressions.push(format!("offsetof({}, {})", $c, stringify!($field)));
                // SAFETY: the value is zeroed, and no field of it is read.
                found.push(unsafe { std::ptr::addr_of!((*at).$field) } as usize - at as usize);
            )*
            (expressions, found)
        }};
    }

    /// The folders that the header may be in.
    fn headers() -> [PathBuf; 2] {
        ["csrc", "../../tcpcore"].map(|it| PathBuf::from(env!("CARGO_MANIFEST_DIR")).join(it))
    }

    /// The values that the C compiler gives to these expressions.
    fn told(name: &str, expressions: &str) -> Vec<u64> {
        let text = format!(
            "#include \"tcpcore.h\"\n#include <stdio.h>\nint main(void) {{ unsigned long long all[] = {{ {expressions} }};\n\
             for (unsigned i = 0; i < sizeof all / sizeof *all; i++) printf(\"%llu \", all[i]); }}\n"
        );
        let folder = std::env::temp_dir().join(format!("tcpcore-{name}-{}", std::process::id()));
        std::fs::create_dir_all(&folder).unwrap();
        let (file, program) = (folder.join("told.c"), folder.join("told"));
        std::fs::write(&file, text).unwrap();
        let headers = headers().map(|it| format!("-I{}", it.display()));
        assert!(Command::new("cc").args(headers).arg("-o").arg(&program).arg(&file).status().unwrap().success());
        let told = String::from_utf8(Command::new(&program).output().unwrap().stdout).unwrap();
        std::fs::remove_dir_all(&folder).unwrap();
        told.split_whitespace().map(|it| it.parse().unwrap()).collect()
    }

    #[test]
    fn layouts() {
        let all = [
            places!(Addr, "struct tcpcore_addr", byte),
            places!(
                Config,
                "struct tcpcore_config",
                addr,
                port,
                mss,
                isn,
                send_capacity,
                recv_capacity,
                limit,
                window_shift,
                scales,
                sack,
                runs
            ),
            places!(
                Status,
                "struct tcpcore_status",
                phase,
                ending,
                unread,
                released,
                ordered,
                snd_una,
                rcv_position,
                room,
                queued,
                in_flight,
                mss,
                own_shift,
                peer_shift,
                scaling,
                sack,
                snd_wnd,
                rcv_wnd,
                snd_nxt,
                closing,
                finished,
                reserved
            ),
            places!(ArriveReport, "struct tcpcore_arrive_report", at_once, rule, acked, brought, is_duplicate, window_taken, reserved),
            places!(Intake, "struct tcpcore_intake", guard, is_vouched, reserved),
            places!(Transmit, "struct tcpcore_transmit", to, kind, length, position, count, reserved),
            places!(
                TimeWait,
                "struct tcpcore_time_wait",
                mark,
                addr,
                peer_addr,
                port,
                peer_port,
                snd_nxt,
                rcv_nxt,
                rcv_wnd,
                reset_addr,
                reset_seq,
                reset_ack,
                reset_port,
                shift,
                ack,
                reset,
                ending
            ),
            places!(End, "struct tcpcore_end", opaque),
            places!(Piece, "struct tcpcore_piece", at, length),
            places!(Lent, "struct tcpcore_lent", first, second, ends, reserved),
            places!(Parts, "struct tcpcore_parts", to, header, first, second, reserved),
            places!(Train, "struct tcpcore_train", whole, header, each, segments, reserved),
            places!(Connection, "struct tcpcore_connection", opaque),
            places!(
                ConnectionRules,
                "struct tcpcore_connection_rules",
                first,
                least,
                greatest,
                granularity,
                after_syn,
                time_wait,
                handshake,
                user,
                fin_wait_2,
                suspect_after,
                guard,
                reserved
            ),
            places!(ConnectionSegment, "struct tcpcore_connection_segment", length, position, count, to, reserved),
            places!(Congestion, "struct tcpcore_congestion", cwnd, ssthresh, smss, congestion, is_recovering, reserved),
            places!(Policy, "struct tcpcore_policy", ack_delay, override_timeout, answer_interval, nagle, reserved),
            places!(KeepAlive, "struct tcpcore_keep_alive", idle, interval, most, reserved),
        ];
        let (expressions, found): (Vec<_>, Vec<_>) = all.into_iter().unzip();
        let (expressions, found) = (expressions.concat(), found.concat());
        let constants = "TCPCORE_EMIT_ROOM, TCPCORE_TRAIN_ROOM, TCPCORE_HEADER_ROOM, TCPCORE_RESET_ROOM, TCPCORE_TIME_WAIT_ROOM, \
                         TCPCORE_MEMORY(17, 1) + TCPCORE_STRUCT_ROOM, TCPCORE_MEMORY_RUNS(1, 17, 3) + TCPCORE_STRUCT_ROOM, \
                         TCPCORE_CONNECTION_MEMORY(17, 1) + TCPCORE_STRUCT_ROOM, \
                         TCPCORE_CONNECTION_MEMORY_RUNS(1, 17, 3) + TCPCORE_STRUCT_ROOM, TCPCORE_RECOVERY_MEMORY, TCPCORE_RUNS, TCPCORE_MAX_RUNS, \
                         TCPCORE_LIMIT, TCPCORE_VERSION";
        let memory = [crate::memory(17, 1), crate::memory_with_runs(1, 17, 3)];
        let memory = memory.into_iter().chain([crate::connection_memory(17, 1), crate::connection_memory_with_runs(1, 17, 3)]);
        let memory = memory.chain([crate::RECOVERY_MEMORY, crate::RUNS.into(), crate::MAX_RUNS.into()]);
        let rooms = [crate::EMIT_ROOM, crate::TRAIN_ROOM, crate::HEADER_ROOM, crate::RESET_ROOM, crate::RESET_ROOM];
        let constants_found = rooms.into_iter().chain(memory).map(|it| it as u64);
        let wanted: Vec<u64> = found.into_iter().map(|it| it as u64).chain(constants_found).chain([crate::LIMIT, VERSION.into()]).collect();
        assert_eq!(told("layouts", &format!("{}, {constants}", expressions.join(", "))), wanted);
    }

    /// The name of a C constant, by the name of Rust's: PeerOpens is PEER_OPENS.
    fn name(kind: &str, value: &dyn std::fmt::Debug) -> String {
        let mut found = format!("TCPCORE_{kind}");
        for letter in format!("{value:?}").chars() {
            if letter.is_uppercase() {
                found.push('_');
            }
            found.push(letter.to_ascii_uppercase());
        }
        found
    }

    /// Rust's constants have C's numbers, and there are no others.
    #[test]
    fn numbers() {
        let mut all = vec![];
        all.extend(RULES.iter().map(|(it, _)| (name("RULE", it), *it as u64)));
        all.extend(BROUGHT.iter().map(|(it, _)| (name("BROUGHT", it), *it as u64)));
        all.extend(KINDS.iter().map(|(it, _)| (name("KIND", it), *it as u64)));
        let (names, wanted): (Vec<_>, Vec<_>) = all.into_iter().unzip();
        assert_eq!(told("numbers", &names.join(", ")), wanted);
        let header = headers().iter().find_map(|it| std::fs::read_to_string(it.join("tcpcore.h")).ok()).unwrap();
        let of_c = header.lines().filter_map(|it| it.trim().strip_prefix("TCPCORE_")?.split_once(' '));
        let of_c = of_c.map(|(name, _)| name).filter(|it| ["RULE_", "BROUGHT_", "KIND_"].iter().any(|kind| it.starts_with(kind)));
        // Two of C's stand for none.
        assert_eq!(of_c.count(), wanted.len() + 2);
    }
}
