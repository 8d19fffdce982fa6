package tcpcore

/*
#include "connection.h"
*/
import "C"

import "fmt"

// Phase is a state of a connection (RFC 9293, 3.3.2).
type Phase uint32

// The phases, in the order of tcpcore.h.
const (
	Closed Phase = iota
	Listening
	SynSent
	SynReceived
	Open // ESTABLISHED
	FinWait1
	FinWait2
	CloseWait
	Closing
	LastAck
	InTimeWait
)

var phaseNames = [...]string{"CLOSED", "LISTEN", "SYN-SENT", "SYN-RECEIVED", "ESTABLISHED", "FIN-WAIT-1", "FIN-WAIT-2", "CLOSE-WAIT",
	"CLOSING", "LAST-ACK", "TIME-WAIT"}

// String is the phase's name in RFC 9293.
func (phase Phase) String() string {
	if int(phase) >= len(phaseNames) {
		return fmt.Sprintf("Phase(%d)", uint32(phase))
	}
	return phaseNames[phase]
}

// Ending is how a connection ended.
type Ending uint32

const (
	// NotEnded: it hasn't.
	NotEnded Ending = iota
	// Orderly: both sides closed, and knew it; what is unread can still be read.
	Orderly
	// WasReset: the peer reset it; what was queued or unread is discarded.
	WasReset
	// WasAborted: this side aborted it, or a limit of its Rules did; what was queued or unread is discarded.
	WasAborted
)

var endingNames = [...]string{"not ended", "orderly", "reset", "aborted"}

func (ending Ending) String() string {
	if int(ending) >= len(endingNames) {
		return fmt.Sprintf("Ending(%d)", uint32(ending))
	}
	return endingNames[ending]
}

// Status is what an end or a connection tells of itself. Positions don't wrap: a direction's SYN is at 0, byte i at 1 + i.
type Status struct {
	Phase  Phase
	Ending Ending
	// Unread is how many bytes came in order and wait to be read, Ordered how many came in order up to now, read or not.
	Unread, Ordered uint64
	// Released is how many bytes that were sent are acknowledged.
	Released uint64
	// SndUna is SND.UNA, the oldest position of the own direction that isn't acknowledged, SndNxt SND.NXT, the next one to be sent for the
	// first time, and RcvNxt RCV.NXT, the next one of the peer's direction.
	SndUna, SndNxt, RcvNxt uint64
	// Room is how many bytes of a long text Send would take; Queued how many were taken and aren't acknowledged, and InFlight how many of
	// these were sent.
	Room, Queued, InFlight uint64
	// SndWnd is the peer's window in bytes, RcvWnd the own one.
	SndWnd, RcvWnd uint32
	// MSS is the most text of a segment, by both SYNs: 0 until the peer's was taken.
	MSS uint32
	// Scaled is whether windows are scaled (RFC 7323), by OwnShift those that are advertised, and by PeerShift the peer's.
	Scaled              bool
	OwnShift, PeerShift uint8
	// Sack is whether selective acknowledgement is in use (RFC 2018).
	Sack bool
	// Closing is whether Close was accepted, Finished whether the peer's FIN was taken.
	Closing, Finished bool
}

func statusOf(told *C.struct_tcpcore_status) Status {
	return Status{Phase: Phase(told.phase), Ending: Ending(told.ending), Unread: uint64(told.unread), Ordered: uint64(told.ordered),
		Released: uint64(told.released), SndUna: uint64(told.snd_una), SndNxt: uint64(told.snd_nxt), RcvNxt: uint64(told.rcv_position),
		Room: uint64(told.room), Queued: uint64(told.queued), InFlight: uint64(told.in_flight), SndWnd: uint32(told.snd_wnd),
		RcvWnd: uint32(told.rcv_wnd), MSS: uint32(told.mss), Scaled: told.scaling == 1, OwnShift: uint8(told.own_shift),
		PeerShift: uint8(told.peer_shift), Sack: told.sack == 1, Closing: told.closing == 1, Finished: told.finished == 1}
}

// Established and Ended tell the phase and whether the connection has ended, of a status.
func Established(status Status) bool { return status.Phase == Open }
func Ended(status Status) bool       { return status.Ending != NotEnded }
