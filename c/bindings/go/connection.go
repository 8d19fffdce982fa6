package tcpcore

/*
#include "connection.h"
#include <stdlib.h>
*/
import "C"

import (
	"io"
	"math"
	"time"
	"unsafe"
)

// UserTimeout is a timer of a connection alone: its user timeout (RFC 9293, 3.8.3), or the limit of FIN-WAIT-2, has passed, or its
// keep-alives went unanswered (3.8.4), and it is aborted. Others are Retransmit, Reorder and TimeWait.
const UserTimeout = C.TCPCORE_TIMER_USER

// What Connection.Arrive answers of a segment that isn't taken. That the bytes are no segment has other answers.
const (
	// ErrDropped: the connection passed the segment over; an answer to it may be due.
	ErrDropped = Refused(C.TCPCORE_DROPPED)
	// ErrNotMine: it is another connection's. Nothing has changed.
	ErrNotMine = Refused(C.TCPCORE_NOT_MINE)
	// ErrEmitFirst: a timer has expired, and what was due then has to go out first. Nothing has changed: Emit until nothing is due, and hand
	// the same segment in again.
	ErrEmitFirst = Refused(C.TCPCORE_EMIT_FIRST)
	// ErrWithheld: a reset that counts as lost. Nothing has changed, and there is nothing to do.
	ErrWithheld = Refused(C.TCPCORE_WITHHELD)
)

// What the user's calls of a connection are refused with.
const (
	// ErrNotConnected: no peer is known, of Send in LISTEN.
	ErrNotConnected = Refused(C.TCPCORE_NOT_CONNECTED)
	// ErrClosing: Close was called.
	ErrClosing = Refused(C.TCPCORE_CLOSING)
	// ErrEnded: the connection has ended; Status says how.
	ErrEnded = Refused(C.TCPCORE_ENDED)
	// ErrStreamFull: the direction has accepted as many bytes as the Limit of the Config allows.
	ErrStreamFull = Refused(C.TCPCORE_STREAM_FULL)
	// ErrNoEnd: the connection was freed.
	ErrNoEnd = Refused(C.TCPCORE_NO_END)
	// ErrInUse: SetRecovery was called before.
	ErrInUse = Refused(C.TCPCORE_IN_USE)
	// ErrBegun: text or a FIN was sent before SetRecovery, or before SetCongestion.
	ErrBegun = Refused(C.TCPCORE_NO_RULE)
)

// Never is a limit of Rules that isn't there.
const Never time.Duration = math.MaxInt64

// Guard is how far a guard reaches by default, two of the greatest windows, and NoGuard is none.
const (
	Guard   uint32 = C.TCPCORE_GUARD
	NoGuard uint32 = C.TCPCORE_NO_GUARD
)

// Rules is how the retransmission timeout of a connection is made (RFC 6298, 2 and 5), how long it waits (RFC 9293, 3.8.3), and what its
// guard keeps out (RFC 5961, 5.2). Whole microseconds count, and a negative duration is 0. DefaultRules has the values of the standards.
type Rules struct {
	// First is the timeout before any round trip was measured: 1 s (RFC 6298, 2.1).
	First time.Duration
	// No timeout is below Least: 1 s (RFC 6298, 2.4). It is above 0, and at most Greatest.
	Least time.Duration
	// None is above Greatest: 60 s or more (RFC 6298, 2.5), and at most 2^40 microseconds.
	Greatest time.Duration
	// Granularity is G, that of the clock (RFC 6298, 2); at most 2^40 microseconds.
	Granularity time.Duration
	// AfterSyn is the timeout with which data begin where the SYN was sent again and First is less: 3 s (RFC 6298, 5.7).
	AfterSyn time.Duration
	// TimeWait is two maximum segment lifetimes: 4 minutes (RFC 9293, 3.4.2).
	TimeWait time.Duration
	// Handshake is how long a SYN may be without an answer: 3 minutes or more (RFC 9293, 3.8.3), or Never.
	Handshake time.Duration
	// User is the user timeout, how long all else may be without an answer: 100 s or more (RFC 9293, 3.8.3), or Never.
	User time.Duration
	// FinWait2 is how long FIN-WAIT-2 may last without anything of the peer's, while all that came is read; Never is the standard's.
	FinWait2 time.Duration
	// After SuspectAfter timeouts in a row the path is suspect, and before them no connection is given up: 3 or more (RFC 9293, 3.8.3).
	SuspectAfter uint32
	// Guard is that against segments of somebody who sees nothing of the connection (RFC 5961, 5.2): how many sequence numbers behind SND.UNA
	// the acknowledgement of a segment may lie that is taken, and while the window is shut how many behind RCV.NXT its own number may. It is
	// the constant Guard or more: below it, what the peer sent may be kept out. 0 is Guard, and NoGuard is none.
	Guard uint32
}

// DefaultRules has the values of the standards, with a clock of milliseconds, 60 s as the greatest timeout, 3 minutes for a SYN, a user
// timeout of 5 minutes, FIN-WAIT-2 without a limit, and the guard.
func DefaultRules() Rules {
	return Rules{First: time.Second, Least: time.Second, Greatest: time.Minute, Granularity: time.Millisecond, AfterSyn: 3 * time.Second,
		TimeWait: 4 * time.Minute, Handshake: 3 * time.Minute, User: 5 * time.Minute, FinWait2: Never, SuspectAfter: 3, Guard: Guard}
}

// micros is a duration in C; a negative one is none.
func micros(duration time.Duration) C.uint64_t {
	if duration < 0 {
		return 0
	}
	return C.uint64_t(duration / time.Microsecond)
}

// limit is micros of what may be Never.
func limit(duration time.Duration) C.uint64_t {
	if duration == Never {
		return C.TCPCORE_NEVER
	}
	return micros(duration)
}

func (rules Rules) c() C.struct_tcpcore_connection_rules {
	return C.struct_tcpcore_connection_rules{first: micros(rules.First), least: micros(rules.Least), greatest: micros(rules.Greatest),
		granularity: micros(rules.Granularity), after_syn: micros(rules.AfterSyn), time_wait: micros(rules.TimeWait),
		handshake: limit(rules.Handshake), user: limit(rules.User), fin_wait_2: limit(rules.FinWait2),
		suspect_after: C.uint32_t(rules.SuspectAfter), guard: C.uint32_t(rules.Guard)}
}

// Connection is one end of one TCP connection, with its clock: an end that keeps its own timers. These are the retransmission timeout by
// measured round trips (RFC 6298), what the peer's blocks passed over (RFC 2018, 5), TIME-WAIT, and the user timeout (RFC 9293, 3.8.3).
//
// It has no socket, reads no clock and starts no goroutine: each call that depends on the time is told it, as time.Now tells it or a clock
// of the caller's. A time before that of an earlier call counts as that, but for keep-alives and pacing, which go by the times as they are.
// Struct and block lie in C's memory, which Free gives back. One goroutine at a time uses it, as an End.
//
// Behind Connect, Emit until nothing is due: the SYN is due at once, and PollAt is only when it goes out again. Then a program goes round
// this loop, whose steps 2 to 4 are also one call, Exchange:
//
//  1. Wait for a segment, or until PollAt.
//  2. Arrive for each segment that came.
//  3. Send, Receive and Close as the user wants. Then Emit until nothing is due, and send each segment.
//  4. Timeout. Where a timer has expired Emit again until nothing is due, and look for another one.
//  5. In CLOSED the connection is over: Free it. Else go on with 1.
//
// Where the path may be congested SetCongestion chooses a congestion window; SetRecovery has losses found by time, and SetPolicy says when
// acknowledgements and small segments wait. Who has emissions wait by a rule of his own goes by AtOnce of the ArriveReport (RFC 5681, 4.2).
// A peer that vanished while nothing was under way is found where SetKeepAlive has it asked (RFC 9293, 3.8.4).
type Connection struct {
	// Window is that of the caller's congestion control (RFC 5681, 3.1), in bytes: what ends more than so many numbers past SND.UNA waits,
	// unless nothing before it is in flight. Connect and Listen set the greatest number, which holds back nothing.
	Window uint64

	raw   *C.tcpcore_connection // at the front of the block
	block unsafe.Pointer
	// The memory of the recovery, where it was chosen.
	recovery unsafe.Pointer
	began    time.Time
	told     C.struct_connection_told // of the last turn
}

// Connect opens a connection to this address and port (RFC 9293, 3.10.1): its SYN is due.
func Connect(config Config, rules Rules, addr Addr, port uint16, now time.Time) (*Connection, error) {
	return newConnection(config, rules, false, addr, port, now)
}

// Listen waits for one peer (RFC 9293, 3.10.1).
func Listen(config Config, rules Rules, now time.Time) (*Connection, error) {
	return newConnection(config, rules, true, Addr{}, 0, now)
}

func newConnection(config Config, rules Rules, listens bool, addr Addr, port uint16, now time.Time) (*Connection, error) {
	c, ruled := config.c(), rules.c()
	// Where the room is 0 the call says what is wrong with the config.
	room := C.tcpcore_connection_room(&c) + C.sizeof_tcpcore_connection
	block := C.malloc(room)
	if block == nil {
		return nil, Refused(C.TCPCORE_NO_MEMORY)
	}
	made := C.connection_make(&c, &ruled, is(listens), addr.c(), C.uint16_t(port), 0, (*C.uchar)(block), room)
	if made.answer != C.TCPCORE_DONE {
		C.free(block)
		return nil, Refused(made.answer)
	}
	return &Connection{Window: math.MaxUint64, raw: made.raw, block: block, began: now}, nil
}

// Free gives the connection up, without a word to the peer, and its memory back; a second time it does nothing. What follows is refused
// with ErrNoEnd, and a call that returns no error panics with it.
func (connection *Connection) Free() {
	C.tcpcore_connection_free(connection.raw)
	C.free(connection.block)
	C.free(connection.recovery)
	connection.raw, connection.block, connection.recovery = new(C.tcpcore_connection), nil, nil
}

// since is a time as C has it. What is further away than a Duration can say goes by the wall clock.
func (connection *Connection) since(now time.Time) C.uint64_t {
	passed := now.Sub(connection.began)
	if passed == math.MaxInt64 {
		return C.uint64_t(now.UnixMicro() - connection.began.UnixMicro())
	}
	return micros(passed)
}

// timeOf is the time that C tells; the zero Time where there is none.
func (connection *Connection) timeOf(at uint64) time.Time {
	if at == C.TCPCORE_NEVER {
		return time.Time{}
	}
	if at > math.MaxInt64/2 {
		at = math.MaxInt64 / 2 // In the year 146,000 or so.
	}
	if at > uint64(math.MaxInt64/time.Microsecond) {
		return time.UnixMicro(connection.began.UnixMicro() + int64(at))
	}
	return connection.began.Add(time.Duration(at) * time.Microsecond)
}

// Arrive says that a segment has come from one address to the other (RFC 9293, 3.10.7), without its IPv4 header. The error is nil where it
// was taken, else what became of it. ErrEmitFirst is told between a Timeout that found a timer and the end of what it made due; a caller
// that emits all of that behind the Timeout never meets it. What the Guard of the Rules keeps out is passed over, and an acknowledgement is due.
func (connection *Connection) Arrive(now time.Time, src, dst Addr, segment []byte) (ArriveReport, error) {
	told := C.connection_arrive(connection.raw, connection.since(now), src.c(), dst.c(), bytesOf(segment), C.size_t(len(segment)))
	return arriveReport(&told.report), done(told.answer)
}

// ArriveVouched is Arrive of a segment whose checksum a device has found right: it isn't summed.
func (connection *Connection) ArriveVouched(now time.Time, src, dst Addr, segment []byte) (ArriveReport, error) {
	told := C.connection_arrive_vouched(connection.raw, connection.since(now), src.c(), dst.c(), bytesOf(segment), C.size_t(len(segment)))
	return arriveReport(&told.report), done(told.answer)
}

// Emission is a segment that a connection has emitted; all 0 where none was due.
type Emission struct {
	// To is the address that it goes to.
	To Addr
	// Length is how many bytes it has, with its header.
	Length int
	// Position is where it begins in the own direction: a SYN at 0, byte i at 1 + i, the FIN after the last byte, an acknowledgement at
	// SND.NXT; 0 of a reset.
	Position uint64
	// Count is how many numbers it takes: one for each byte of text, one for a SYN, one for a FIN (RFC 9293, 3.4).
	Count int
}

// Emit writes the segment that is due to the front of `room`, checksum and all (RFC 9293, 3.7, 3.8 and 3.10); Length is 0 where none is.
// More may be due: emit until there is none. A pending acknowledgement goes out alone before anything that is sent again.
func (connection *Connection) Emit(now time.Time, room *[EmitRoom]byte) Emission {
	told := C.connection_emit(connection.raw, connection.since(now), C.uint64_t(connection.Window), (*C.uchar)(&room[0]))
	found(told.answer)
	segment := &told.segment
	return Emission{*(*Addr)(unsafe.Pointer(&segment.to)), int(segment.length), uint64(segment.position), int(segment.count)}
}

// EmitTrain writes as many segments of new text as one as end within the Window, at most `most`, for a device that cuts them and sums;
// anything else goes alone, also a pending acknowledgement where what is due waits. With 1 it is one segment for a device that sums. The
// connection is as after as many calls of Emit. It refuses less room than EmitRoom.
func (connection *Connection) EmitTrain(now time.Time, room []byte, most int) (Train, error) {
	if most < 0 {
		most = 0
	}
	told := C.connection_emit_train(connection.raw, connection.since(now), C.uint64_t(connection.Window), front(room), C.size_t(len(room)),
		C.size_t(most))
	if told.answer == C.TCPCORE_NOT_DUE {
		return Train{}, nil
	}
	return train(&told.train), done(told.answer)
}

// PollAt is when Timeout has to be called, or what waits is to be emitted, if nothing else happens before; the zero Time where no timer runs
// and nothing waits, as the SetReadDeadline of a net.Conn takes it. It may have passed: then emit, and call it now. Where it is called later,
// all that is sent again is sent later.
func (connection *Connection) PollAt() time.Time {
	told := C.connection_poll_at(connection.raw)
	found(told.answer)
	return connection.timeOf(uint64(told.at))
}

// Timeout says that it is `now`, and tells which timer has expired, Retransmit to UserTimeout, if one has: its rule was applied (RFC 9293,
// 3.10.8). Then Emit until nothing is due. Before that no other timer expires.
func (connection *Connection) Timeout(now time.Time) (timer uint32, expired bool) {
	told := C.connection_timeout(connection.raw, connection.since(now))
	return uint32(told.timer), found(told.answer)
}

// SetUserTimeout takes the place of the User of the Rules (RFC 9293, 3.8.3 and 3.10.2); Never is no limit. The time that has passed already
// counts, so that PollAt may be another then. A SYN keeps the limit Handshake.
func (connection *Connection) SetUserTimeout(after time.Duration) error {
	return done(C.tcpcore_connection_set_user_timeout(connection.raw, limit(after)))
}

// ResendFirst says that the first segment in flight must be sent again at once, for a caller that finds losses by its own rules (RFC 5681,
// 3.2), and tells whether anything is in flight.
func (connection *Connection) ResendFirst(now time.Time) bool {
	return found(C.tcpcore_connection_resend_first(connection.raw, connection.since(now)))
}

// Resend says that what lies from one position on and before another must be sent again at once, and nothing else of what is in flight, for a
// caller that knows which stretch is lost (RFC 6675, 5; RFC 8985, 6.2). Positions are those of an Emission. It tells whether anything in flight
// lies there.
func (connection *Connection) Resend(now time.Time, from, to uint64) bool {
	return found(C.tcpcore_connection_resend(connection.raw, connection.since(now), C.uint64_t(from), C.uint64_t(to)))
}

// The congestion windows of SetCongestion: none, that of RFC 5681, and that of RFC 9438.
const (
	NoCongestion uint32 = C.TCPCORE_CONGESTION_NONE
	Reno         uint32 = C.TCPCORE_CONGESTION_RENO
	Cubic        uint32 = C.TCPCORE_CONGESTION_CUBIC
)

// Congestion is the congestion window of a connection, in bytes (RFC 5681, 3): which was chosen, cwnd, ssthresh and SMSS, and whether a loss
// was found that isn't repaired yet. Without a window cwnd and ssthresh are 1 << 40, more than is ever in flight.
type Congestion struct {
	Kind           uint32
	Cwnd, Ssthresh uint64
	Smss           int
	Recovering     bool
}

// SetCongestion chooses the congestion window, NoCongestion, Reno or Cubic (RFC 5681, 3; RFC 9438), any time before text is sent: from then
// on what is emitted ends within it and what it lets out beyond itself (RFC 3042; RFC 6675, 5), beside the Window. Refused(54) where text
// was sent already.
func (connection *Connection) SetCongestion(kind uint32) error {
	return done(C.tcpcore_connection_set_congestion(connection.raw, C.uint32_t(kind)))
}

// Congestion tells the congestion window as it is.
func (connection *Connection) Congestion() Congestion {
	told := C.connection_congestion(connection.raw)
	found(told.answer)
	it := &told.congestion
	return Congestion{uint32(it.congestion), uint64(it.cwnd), uint64(it.ssthresh), int(it.smss), it.is_recovering == 1}
}

// Policy is when an acknowledgement and a small segment of a connection go out (RFC 9293, 3.7.4 and 3.8.6; RFC 5961, 7). Whole microseconds
// count, a negative duration is 0, and any values may be chosen. DefaultPolicy has common values.
type Policy struct {
	// An acknowledgement of text waits so long for a second full segment, less than 0.5 s whatever is chosen (RFC 9293, 3.8.6.3); 0: none waits.
	AckDelay time.Duration
	// Text that isn't worth a segment waits so long, counted from when only its size holds it back, 0.1 to 1 s (RFC 9293, 3.8.6.2): until
	// then no small segment goes into a small window, and none goes out just for a window that opened by little. Never: no text waits, and a
	// window that was opened by reading is advertised only where it was shut.
	OverrideTimeout time.Duration
	// ACK throttling (RFC 5961, 7): of the acknowledgements that only answer a segment without text and FIN, or a SYN in a synchronized
	// state, as challenge ACKs do, one goes out in this time, a few seconds at most; 0: no throttling.
	AnswerInterval time.Duration
	// Text that doesn't fill a segment waits while anything is in flight, by the Nagle algorithm (RFC 9293, 3.7.4), unless OverrideTimeout is
	// Never.
	Nagle bool
}

// DefaultPolicy has common values: an acknowledgement waits 40 ms, a small segment while anything is in flight, until the override timeout of
// 0.5 s, and what brings nothing is answered once in 0.5 s.
func DefaultPolicy() Policy {
	half := 500 * time.Millisecond
	return Policy{AckDelay: 40 * time.Millisecond, OverrideTimeout: half, AnswerInterval: half, Nagle: true}
}

// SetPolicy chooses when an acknowledgement and a small segment go out, at any time: at once where it isn't called. From then on Emit passes
// over what waits, and PollAt tells when it no longer does. An acknowledgement that waited is due then, and text begins to wait
// anew.
func (connection *Connection) SetPolicy(policy Policy) error {
	chosen := C.struct_tcpcore_policy{ack_delay: micros(policy.AckDelay), override_timeout: limit(policy.OverrideTimeout),
		answer_interval: micros(policy.AnswerInterval)}
	if policy.Nagle {
		chosen.nagle = 1
	}
	return done(C.tcpcore_connection_set_policy(connection.raw, &chosen))
}

// KeepAlive is when the silent peer of a connection is asked whether it is there, and when it is given up (RFC 9293, 3.8.4). Whole
// microseconds count, and no duration as less than a second. UsualKeepAlive has usual values.
type KeepAlive struct {
	// The peer is asked where nothing was heard of it for so long: 2 hours or more, unless a user chooses less.
	Idle time.Duration
	// It is asked again behind each so long: 75 s by custom.
	Interval time.Duration
	// With so many unanswered it is given up, an interval behind the last: 9 by custom. Less than 2 counts as 2: one may be lost.
	Most uint32
}

// UsualKeepAlive has two hours, the least that the standard has where nothing else is chosen, and by custom nine keep-alives, 75 s apart.
func UsualKeepAlive() KeepAlive {
	return KeepAlive{Idle: 2 * time.Hour, Interval: 75 * time.Second, Most: 9}
}

// SetKeepAlive has the peer asked by these rules where nothing is heard of it from `now` on, and given up where it doesn't answer; with nil it
// isn't asked, as a connection begins. Silence counts from `now` on, and what is passed over of what comes breaks none. Emit writes the segment
// that asks, at the time of PollAt, in ESTABLISHED and CLOSE-WAIT, while all that was sent is acknowledged and nothing waits to be sent. Where
// the peer is given up Timeout tells UserTimeout, and the connection is aborted.
func (connection *Connection) SetKeepAlive(now time.Time, rules *KeepAlive) error {
	var chosen C.struct_tcpcore_keep_alive
	if rules != nil {
		chosen = C.struct_tcpcore_keep_alive{idle: micros(rules.Idle), interval: micros(rules.Interval), most: C.uint32_t(rules.Most)}
		if chosen.idle == 0 {
			// That is C's word for none.
			chosen.idle = 1
		}
	}
	return done(C.tcpcore_connection_set_keep_alive(connection.raw, connection.since(now), &chosen))
}

// SetPacing has new text go out spread over a round trip, in portions of as many whole segments as go out in a millisecond at 1.25, in slow
// start 2, congestion windows a round trip, or as the window has, up to ten, where those are more, and two at least (RFC 9002, 7.7); or at
// once, as a connection begins. What is sent again doesn't wait, and without a congestion window practically nothing does. Where text waits
// for its portion PollAt is when the next one begins: Emit then. A caller that paces has to wait by a fine timer.
func (connection *Connection) SetPacing(paced bool) error {
	var chosen C.uint32_t
	if paced {
		chosen = 1
	}
	return done(C.tcpcore_connection_set_pacing(connection.raw, chosen))
}

// SetRecovery has losses found by time from `now` on, and the end of what is sent probed, in the place of a round trip behind a gap (RFC 8985),
// where both SYNs agree on selective acknowledgement; else silence alone is probed, by the first two segments in flight. It takes memory of
// C's of its own, which Free gives back. Behind text it is refused with ErrBegun, and a second time with ErrInUse.
func (connection *Connection) SetRecovery(now time.Time) error {
	memory := C.malloc(C.TCPCORE_RECOVERY_MEMORY)
	if memory == nil {
		return Refused(C.TCPCORE_NO_MEMORY)
	}
	answer := C.tcpcore_connection_set_recovery(connection.raw, connection.since(now), memory, C.TCPCORE_RECOVERY_MEMORY)
	if answer != C.TCPCORE_DONE {
		C.free(memory)
		return Refused(answer)
	}
	connection.recovery = memory
	return nil
}

// Peer is the peer's address and port (RFC 9293, 3.10.6); ErrNotConnected before they are known.
func (connection *Connection) Peer() (Addr, uint16, error) {
	told := C.connection_peer(connection.raw)
	return *(*Addr)(unsafe.Pointer(&told.addr)), uint16(told.port), done(told.answer)
}

// Send takes the front of the text that fits, and tells its length. Offer the rest once the peer has acknowledged some.
func (connection *Connection) Send(now time.Time, text []byte) (int, error) {
	told := C.connection_send(connection.raw, connection.since(now), bytesOf(text), C.size_t(len(text)))
	return int(told.count), done(told.answer)
}

// Receive hands over what came in order; 0 where there is nothing yet, io.EOF at the end of the stream. What isn't read closes the window.
func (connection *Connection) Receive(now time.Time, out []byte) (int, error) {
	switch told := C.connection_receive(connection.raw, connection.since(now), bytesOf(out), C.size_t(len(out))); told.answer {
	case C.TCPCORE_NOTHING:
		return 0, nil
	case C.TCPCORE_END_OF_STREAM:
		return 0, io.EOF
	default:
		return int(told.count), done(told.answer)
	}
}

// Peek lends all unread bytes where they lie, as Peek of an End.
func (connection *Connection) Peek() (first, second []byte, err error) {
	switch told := C.connection_peek(connection.raw); told.answer {
	case C.TCPCORE_NOTHING:
		return nil, nil, nil
	case C.TCPCORE_END_OF_STREAM:
		return nil, nil, io.EOF
	default:
		return piece(told.lent.first), piece(told.lent.second), done(told.answer)
	}
}

// Consume takes the first unread bytes away, at most count, and tells how many.
func (connection *Connection) Consume(now time.Time, count int) (int, error) {
	if count < 0 {
		count = 0
	}
	told := C.connection_consume(connection.raw, connection.since(now), C.size_t(count))
	return int(told.count), done(told.answer)
}

// Acknowledge makes an acknowledgement due, which tells the window as it is now: for a user who reads in small pieces (RFC 9293,
// 3.8.6.2.2).
func (connection *Connection) Acknowledge(now time.Time) error {
	return done(C.tcpcore_connection_acknowledge(connection.raw, connection.since(now)))
}

// Close says that this side has no more to send (RFC 9293, 3.10.4); what was sent still goes out, and the peer's text can still be read.
func (connection *Connection) Close(now time.Time) error {
	return done(C.tcpcore_connection_close(connection.raw, connection.since(now)))
}

// Abort gives the connection up (RFC 9293, 3.10.5): a reset is due where the peer may know of it.
func (connection *Connection) Abort(now time.Time) error {
	return done(C.tcpcore_connection_abort(connection.raw, connection.since(now)))
}

// Status tells phase, ending, counts, and what the two SYNs agreed on.
func (connection *Connection) Status() Status {
	told := C.connection_status(connection.raw)
	found(told.answer)
	return statusOf(&told.status)
}

// Turned is what a turn of a connection did: what Send and Receive told; the timers that expired, bit 1 << t for timer t; what PollAt tells
// behind it; and whether the connection is in CLOSED, where nothing is left to do.
type Turned struct {
	Exchanged
	Expired uint32
	PollAt  time.Time
	Closed  bool
}

// Exchange is a whole turn in one call of C: Arrive for each segment of `in`, with Emit until nothing is due behind each one that has to be
// answered at once (RFC 5681, 4.2); then Receive into `read` and Send of `text`, each only where it isn't empty, and Emit until nothing is
// due; and then Timeout, with Emit until nothing is due, until no timer has expired. Where Arrive says ErrEmitFirst what is due is emitted,
// and the segment is handed in again. What is emitted is appended to `out`, another Batch than `in`, whose Err and AtOnce tell of each
// segment. The error is the first of: ErrNoEnd behind Free, then nothing was done; what Receive tells; and what Send tells.
func (connection *Connection) Exchange(now time.Time, src, dst Addr, in, out *Batch, text, read []byte) (Turned, error) {
	return connection.exchange(now, src, dst, in, out, text, nil, C.size_t(len(text)), read)
}

// ExchangeTexts is Exchange for many small writes, as that of an End.
func (connection *Connection) ExchangeTexts(now time.Time, src, dst Addr, in, out, texts *Batch, read []byte) (Turned, error) {
	if texts == out {
		return Turned{}, Refused(C.TCPCORE_OVERLAP)
	}
	return connection.exchange(now, src, dst, in, out, texts.bytes, texts.first(), texts.taken.count, read)
}

// exchange sends texts as that of an End.
func (connection *Connection) exchange(now time.Time, src, dst Addr, in, out *Batch, text []byte, records *C.struct_batch_record,
	count C.size_t, read []byte) (Turned, error) {
	if in == out {
		return Turned{}, Refused(C.TCPCORE_OVERLAP)
	}
	told := &connection.told
	*told = C.struct_connection_told{}
	for {
		if !out.has(EmitRoom) {
			out.grow(EmitRoom)
		}
		C.connection_exchange(connection.raw, connection.since(now), C.uint64_t(connection.Window), src.c(), dst.c(),
			bytesOf(in.bytes), recordsOf(in.records), in.taken.count, bytesOf(text), records, count,
			bytesOf(read), C.size_t(len(read)), bytesOf(out.bytes), recordsOf(out.records), &out.taken, told)
		if told.batch.emit_first == 0 {
			break
		}
	}
	did, refused := exchanged(&told.batch.sent, &told.batch.got)
	turned := Turned{Exchanged: did, Expired: uint32(told.expired)}
	if told.batch.answer != C.TCPCORE_DONE {
		return turned, Refused(told.batch.answer)
	}
	turned.PollAt, turned.Closed = connection.timeOf(uint64(told.poll_at)), told.phase == C.TCPCORE_PHASE_CLOSED
	return turned, refused
}
