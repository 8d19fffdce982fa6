// Package tcpcore is tcpcore.h for Go: one end of one TCP connection, as a value. A Connection keeps its own times, and is what most
// programs want; an End leaves them to its caller. Both lie in C's memory, so that they may be copied as pointers; Free gives it back. One
// is used by one goroutine at a time: two calls of one at once break it, and neither C nor the race detector sees that, so goroutines that
// share one hold a sync.Mutex around each call. Two have nothing in common.
package tcpcore

/*
#cgo CFLAGS: -std=c99 -O2 -I${SRCDIR}/../../../release
#include "batch.h"
#include <stdlib.h>
*/
import "C"

import (
	"io"
	"math/bits"
	"unsafe"
)

// EmitRoom is the room that Emit wants, and TrainRoom the most that EmitTrain uses, in bytes.
const (
	EmitRoom  = C.TCPCORE_EMIT_ROOM
	TrainRoom = C.TCPCORE_TRAIN_ROOM
)

// Build is what code the library is, such as "x86-64-v2 machine code" or "portable C".
func Build() string { return C.GoString(C.tcpcore_build()) }

// The timers of Timer.
const (
	Retransmit = C.TCPCORE_TIMER_RETRANSMIT
	Reorder    = C.TCPCORE_TIMER_REORDER
	TimeWait   = C.TCPCORE_TIMER_TIME_WAIT
)

// What a segment is that Transmit writes.
const (
	Reset           = C.TCPCORE_KIND_RESET
	Syn             = C.TCPCORE_KIND_SYN
	NewText         = C.TCPCORE_KIND_NEW_TEXT
	TextAgain       = C.TCPCORE_KIND_TEXT_AGAIN
	Fin             = C.TCPCORE_KIND_FIN
	FinAgain        = C.TCPCORE_KIND_FIN_AGAIN
	Acknowledgement = C.TCPCORE_KIND_ACKNOWLEDGEMENT
)

// What a segment brought of the peer's stream.
const (
	Nothing = C.TCPCORE_BROUGHT_NOTHING
	InOrder = C.TCPCORE_BROUGHT_IN_ORDER
	Held    = C.TCPCORE_BROUGHT_HELD
	NotKept = C.TCPCORE_BROUGHT_NOT_KEPT
)

// Refused is a call's answer, other than that it was done.
type Refused uint32

func (answer Refused) Error() string { return C.GoString(C.tcpcore_strerror(C.uint32_t(answer))) }

func done(answer C.uint32_t) error {
	if answer != C.TCPCORE_DONE {
		return Refused(answer)
	}
	return nil
}

// found is whether a call found something: nothing is due, or no rule applies, where it didn't. Anything else is a fault of the caller's,
// as a call after Free, and panics.
func found(answer C.uint32_t) bool {
	if answer != C.TCPCORE_DONE && answer != C.TCPCORE_NOT_DUE && answer != C.TCPCORE_NO_RULE {
		panic(Refused(answer))
	}
	return answer == C.TCPCORE_DONE
}

// Addr is an IPv4 address.
type Addr [4]byte

func (addr Addr) c() C.tcpcore_addr { return *(*C.tcpcore_addr)(unsafe.Pointer(&addr)) }

// Runs is how many runs of bytes an end keeps out of order, and how many of the peer's it remembers, where its Config has 0; MaxRuns is the
// greatest number.
const (
	Runs    = C.TCPCORE_RUNS
	MaxRuns = C.TCPCORE_MAX_RUNS
)

// Config is what an end is made from; Shift below 0 says that windows aren't scaled. Limit 0 is the greatest under which no old segment
// is taken for another. Runs is from 1 to MaxRuns, and 0 is Runs of this package: a path that reorders makes about one run for each five
// segments that it carries in the time of its jitter, and each takes 24 bytes of the block.
type Config struct {
	Addr                       Addr
	Port, MSS                  uint16
	ISN                        uint32
	SendCapacity, RecvCapacity uint64
	Shift                      int8
	Sack                       bool
	Limit                      uint64
	Runs                       uint16
}

// DefaultConfig has this address, port and initial sequence number, which is chosen as RFC 9293, 3.4.1 says; with an MSS of 1,460, 65,535
// bytes each way, selective acknowledgement, and windows that aren't scaled.
func DefaultConfig(addr Addr, port uint16, isn uint32) Config {
	return Config{Addr: addr, Port: port, ISN: isn, MSS: 1460, SendCapacity: 65535, RecvCapacity: 65535, Shift: -1, Sack: true}
}

// LeastShift is the least Shift with which all of a receive capacity can be advertised (RFC 7323, 2.2), -1 where no scaling is needed. With
// a greater one the window is 0 while fewer than 1 << Shift bytes are free.
func LeastShift(recvCapacity uint64) int8 {
	if recvCapacity <= 65535 {
		return -1
	}
	return int8(bits.Len64(recvCapacity >> 16))
}

// End is one end.
type End struct {
	raw   *C.tcpcore_end // in the block
	block unsafe.Pointer
	told  C.struct_batch_told // of the last turn
}

func (config Config) c() C.tcpcore_config {
	c := C.tcpcore_config{addr: config.Addr.c(), port: C.uint16_t(config.Port), mss: C.uint16_t(config.MSS), isn: C.uint32_t(config.ISN),
		send_capacity: C.uint64_t(config.SendCapacity), recv_capacity: C.uint64_t(config.RecvCapacity), limit: C.uint64_t(config.Limit), runs: C.uint16_t(config.Runs)}
	if config.Limit == 0 {
		c.limit = 2147483632
	}
	if config.Shift >= 0 {
		c.scales, c.window_shift = 1, C.uint8_t(config.Shift)
	}
	if config.Sack {
		c.sack = 1
	}
	return c
}

// New makes an end: CLOSED, empty, nothing due.
func New(config Config) (*End, error) {
	c := config.c()
	room := C.tcpcore_room(&c) + C.TCPCORE_STRUCT_ROOM
	block := C.malloc(room)
	if block == nil {
		return nil, Refused(C.TCPCORE_NO_MEMORY)
	}
	end := &End{block: block}
	if answer := C.tcpcore_new_at(&end.raw, &c, block, room); answer != C.TCPCORE_DONE {
		C.free(block)
		return nil, Refused(answer)
	}
	return end, nil
}

// Free gives the end up, and its memory back; a second time it does nothing. A call that follows is refused, by an answer that
// tcpcore_strerror names "no end is in the struct", and one that returns no error panics with it.
func (end *End) Free() {
	C.tcpcore_free(end.raw)
	C.free(end.block)
	end.raw, end.block = new(C.tcpcore_end), nil
}

func (end *End) Connect(addr Addr, port uint16) error {
	return done(C.tcpcore_connect(end.raw, addr.c(), C.uint16_t(port)))
}
func (end *End) Listen() error      { return done(C.tcpcore_listen(end.raw)) }
func (end *End) Close() error       { return done(C.tcpcore_close(end.raw)) }
func (end *End) Abort() error       { return done(C.tcpcore_abort(end.raw)) }
func (end *End) Acknowledge() error { return done(C.tcpcore_acknowledge(end.raw)) }

// front is where a slice begins, nil where it is empty.
func front(bytes []byte) unsafe.Pointer {
	if len(bytes) == 0 {
		return nil
	}
	return unsafe.Pointer(&bytes[0])
}

// Send takes the front of the text that fits, and tells its length.
func (end *End) Send(text []byte) (int, error) {
	told := C.batch_send(end.raw, bytesOf(text), C.size_t(len(text)))
	return int(told.count), done(told.answer)
}

// Receive hands over what came in order; 0 where there is nothing yet, io.EOF at the end of the stream.
func (end *End) Receive(out []byte) (int, error) {
	switch told := C.batch_receive(end.raw, bytesOf(out), C.size_t(len(out))); told.answer {
	case C.TCPCORE_NOTHING:
		return 0, nil
	case C.TCPCORE_END_OF_STREAM:
		return 0, io.EOF
	default:
		return int(told.count), done(told.answer)
	}
}

// Peek lends all unread bytes where they lie in C's memory, first and then second: to be read, and not written, until the next call that
// changes the end. None where there are none yet, io.EOF at the end of the stream.
func (end *End) Peek() (first, second []byte, err error) {
	var lent C.struct_tcpcore_lent
	switch answer := C.tcpcore_peek(end.raw, &lent); answer {
	case C.TCPCORE_NOTHING:
		return nil, nil, nil
	case C.TCPCORE_END_OF_STREAM:
		return nil, nil, io.EOF
	default:
		return piece(lent.first), piece(lent.second), done(answer)
	}
}

func piece(it C.tcpcore_piece) []byte { return unsafe.Slice((*byte)(it.at), int(it.length)) }

// Consume takes the first unread bytes away, at most count, and tells how many.
func (end *End) Consume(count int) (int, error) {
	if count < 0 {
		count = 0
	}
	var taken C.size_t
	err := done(C.tcpcore_consume(end.raw, C.size_t(count), &taken))
	return int(taken), err
}

// Emit writes the segment that is due; 0 where none is.
func (end *End) Emit(room *[EmitRoom]byte) (to Addr, length int) {
	told := C.batch_emit_one(end.raw, (*C.uchar)(&room[0]))
	found(told.answer)
	return *(*Addr)(unsafe.Pointer(&told.to)), int(told.length)
}

// EmitAcknowledgement writes the acknowledgement that is pending, alone, though data is due; 0 where none goes out before that.
func (end *End) EmitAcknowledgement(room *[EmitRoom]byte) (to Addr, length int) {
	var count C.size_t
	found(C.tcpcore_emit_acknowledgement(end.raw, unsafe.Pointer(room), EmitRoom, (*C.tcpcore_addr)(unsafe.Pointer(&to)), &count))
	return to, int(count)
}

// EmitPartial is Emit for a device that sums: the checksum field has the sum of the pseudo-header alone.
func (end *End) EmitPartial(room *[EmitRoom]byte) (to Addr, length int) {
	var count C.size_t
	found(C.tcpcore_emit_partial(end.raw, unsafe.Pointer(room), EmitRoom, (*C.tcpcore_addr)(unsafe.Pointer(&to)), &count))
	return to, int(count)
}

// ResendFirst says that of what is in flight as much as one segment carries must be sent again, the first segment, and tells whether
// anything is.
func (end *End) ResendFirst() bool { return found(C.tcpcore_resend_first(end.raw)) }

// Resend says that what lies from one position on and before another must be sent again, and nothing else of what is in flight, but for what
// the peer has reported (RFC 6675, 5; RFC 8985, 6.2). The SYN is at 0, and byte i at 1 + i. It tells whether anything in flight lies there.
func (end *End) Resend(from, to uint64) bool {
	return found(C.tcpcore_resend(end.raw, C.uint64_t(from), C.uint64_t(to)))
}

// Transmit is a segment that was emitted, by the fields of struct tcpcore_transmit; all 0 where none was due.
type Transmit struct {
	To            Addr
	Kind          uint32
	Length, Count int
	Position      uint64
}

func transmit(told *C.struct_tcpcore_transmit) Transmit {
	to := *(*Addr)(unsafe.Pointer(&told.to))
	return Transmit{to, uint32(told.kind), int(told.length), int(told.count), uint64(told.position)}
}

// Transmit is Emit with a report.
func (end *End) Transmit(room *[EmitRoom]byte) Transmit {
	var told C.struct_tcpcore_transmit
	found(C.tcpcore_transmit(end.raw, unsafe.Pointer(room), EmitRoom, &told))
	return transmit(&told)
}

// Train is segments that were emitted as one, by the fields of struct tcpcore_train: segment i, from 0 on, has the Each bytes of the
// text from i * Each on, and the last one has the rest. Segments is 0 where none was due.
type Train struct {
	Whole                  Transmit
	Header, Each, Segments int
}

func train(told *C.struct_tcpcore_train) Train {
	return Train{transmit(&told.whole), int(told.header), int(told.each), int(told.segments)}
}

// EmitTrain writes as many segments of new text as one as the peer's window allows, at most `most`, for a device that cuts them and sums;
// anything else goes alone. It refuses less room than EmitRoom.
func (end *End) EmitTrain(room []byte, most int) (Train, error) {
	if most < 0 {
		most = 0
	}
	var told C.struct_tcpcore_train
	answer := C.tcpcore_emit_train(end.raw, front(room), C.size_t(len(room)), C.size_t(most), &told)
	if answer == C.TCPCORE_NOT_DUE {
		return Train{}, nil
	}
	return train(&told), done(answer)
}

// Arrive takes a segment: nil where it was taken, else what became of it; and whether it has to be answered at once.
func (end *End) Arrive(src, dst Addr, segment []byte) (atOnce bool, err error) {
	told := C.batch_arrive_one(end.raw, src.c(), dst.c(), bytesOf(segment), C.size_t(len(segment)))
	return told.length == 1, done(told.answer)
}

// ArriveReport is what an arrival was to the end, by the fields of struct tcpcore_arrive_report; Rule has the header's number, TCPCORE_RULE_FOREIGN and
// so on.
type ArriveReport struct {
	AtOnce                   bool
	Rule, Brought            uint32
	Acked                    uint64
	IsDuplicate, WindowTaken bool
}

func arriveReport(told *C.struct_tcpcore_arrive_report) ArriveReport {
	return ArriveReport{told.at_once == 1, uint32(told.rule), uint32(told.brought), uint64(told.acked), told.is_duplicate == 1,
		told.window_taken == 1}
}

// ArriveWithReport is Arrive with a report.
func (end *End) ArriveWithReport(src, dst Addr, segment []byte) (ArriveReport, error) {
	var told C.struct_tcpcore_arrive_report
	err := done(C.tcpcore_arrive_with_report(end.raw, src.c(), dst.c(), front(segment), C.size_t(len(segment)), &told))
	return arriveReport(&told), err
}

// ArriveVouchedWithReport is ArriveWithReport of a segment whose checksum a device has found right: it isn't summed again. One that the device found wrong never
// goes here.
func (end *End) ArriveVouchedWithReport(src, dst Addr, segment []byte) (ArriveReport, error) {
	var told C.struct_tcpcore_arrive_report
	err := done(C.tcpcore_arrive_vouched_with_report(end.raw, src.c(), dst.c(), front(segment), C.size_t(len(segment)), &told))
	return arriveReport(&told), err
}

// ArriveBy is ArriveWithReport past a guard of this reach, as Rules has it: NoGuard is none, and 0 is the constant Guard. A segment for which
// a device vouches isn't summed. What the guard keeps out is passed over, and an acknowledgement is due (RFC 5961, 5.2).
func (end *End) ArriveBy(src, dst Addr, segment []byte, guard uint32, vouched bool) (ArriveReport, error) {
	var told C.struct_tcpcore_arrive_report
	intake := C.struct_tcpcore_intake{guard: C.uint32_t(guard), is_vouched: C.uint32_t(is(vouched))}
	err := done(C.tcpcore_arrive_by(end.raw, src.c(), dst.c(), front(segment), C.size_t(len(segment)), &intake, &told))
	return arriveReport(&told), err
}

// Timer says that a timer has run out, and tells whether its rule was applied. Timers has bit 1 << t where timer t has to run.
func (end *End) Timer(timer uint32) bool {
	return found(C.tcpcore_timer(end.raw, C.uint32_t(timer)))
}

func (end *End) Timers() uint32 {
	var due C.uint32_t
	found(C.tcpcore_timers(end.raw, &due))
	return uint32(due)
}

// Status tells phase, ending, counts, and what the two SYNs agreed on.
func (end *End) Status() Status {
	told := C.batch_status(end.raw)
	found(told.answer)
	return statusOf(&told.status)
}
