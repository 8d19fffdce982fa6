package tcpcore

import (
	"io"
	"math/rand"
	"os"
	"strconv"
	"testing"
	"time"
)

// calls is how many hostile calls are made: 20,000, or what TCPCORE_CALLS in the environment says.
func calls(t *testing.T) int {
	word := os.Getenv("TCPCORE_CALLS")
	if word == "" {
		return 20000
	}
	count, err := strconv.Atoi(word)
	if err != nil {
		t.Fatal(err)
	}
	return count
}

// hostile is two connections, of which either may be freed, and the segments that were seen.
type hostile struct {
	t       *testing.T
	random  *rand.Rand
	ends    [2]*Connection
	freed   [2]bool
	seen    [][]byte
	now     time.Time
	answers map[error]int
}

func (it *hostile) rarely() bool { return it.random.Intn(60) == 0 }

// may notes an error, which has to be one that the header has for the call; ErrNoEnd is told where the connection was freed, and nowhere
// else.
func (it *hostile) may(side int, name string, err error, allowed ...error) {
	it.answers[err]++
	if (err == ErrNoEnd) != it.freed[side] {
		it.t.Fatal(name, err, it.freed[side])
	}
	for _, it := range append(allowed, nil, ErrNoEnd) {
		if err == it {
			return
		}
	}
	it.t.Fatal(name, err)
}

// panics makes a call that panics where the connection was freed, and nowhere else.
func (it *hostile) panics(side int, call func()) {
	if found := refusal(call); found != nil && (found != ErrNoEnd || !it.freed[side]) {
		it.t.Fatal(found)
	}
}

func (it *hostile) bytes() []byte {
	bytes := make([]byte, it.random.Intn(80))
	it.random.Read(bytes)
	if most := len(it.seen); most > 0 && it.random.Intn(10) > 0 {
		if most > 8 {
			most = 8
		}
		bytes = append([]byte{}, it.seen[len(it.seen)-1-it.random.Intn(most)]...)
	}
	if it.random.Intn(6) == 0 && len(bytes) > 0 {
		bytes[it.random.Intn(len(bytes))] ^= 1 << it.random.Intn(8)
	}
	if it.rarely() {
		bytes = make([]byte, it.random.Intn(70000))
	}
	return bytes
}

// make makes a connection, of a config and rules that may be out of their ranges.
func (it *hostile) make(side int) {
	config, rules := DefaultConfig(addrs[side], uint16(1+side), it.random.Uint32()), DefaultRules()
	config.MSS, config.SendCapacity, config.RecvCapacity = uint16(60+it.random.Intn(1402)), uint64(it.random.Intn(6000)), uint64(it.random.Intn(6000))
	config.Shift, config.Runs, config.Sack = int8(it.random.Intn(16)-1), uint16(it.random.Intn(9)), it.random.Intn(2) == 0
	if it.random.Intn(6) == 0 {
		config.SendCapacity = 0
	}
	if it.rarely() {
		config.Addr, config.Runs = Addr{}, 65535
	}
	rules.Least, rules.User = time.Duration(it.random.Intn(100)-1)*time.Millisecond, time.Duration(it.random.Int63())
	rules.FinWait2 = time.Duration(it.random.Int63() - 1<<40)
	connection, err := Connect(config, rules, addrs[1-side], uint16(2-side), it.now)
	if it.random.Intn(2) == 0 && err == nil {
		connection.Free()
		connection, err = Listen(config, rules, it.now)
	}
	was := it.freed[side]
	it.freed[side] = false
	it.may(side, "making", err, Refused(21), Refused(23), Refused(24), Refused(26), Refused(28), Refused(29))
	it.freed[side] = was
	if err == nil {
		if it.ends[side] != nil {
			it.ends[side].Free()
		}
		it.ends[side], it.freed[side] = connection, false
		if it.random.Intn(3) > 0 {
			it.may(side, "SetRecovery", connection.SetRecovery(it.now))
		}
	}
}

// exchange makes a turn of any segments and texts.
func (it *hostile) exchange(side int, in, out *Batch) {
	in.Reset()
	out.Reset()
	for i := it.random.Intn(4); i > 0; i-- {
		in.Add(it.bytes())
	}
	text, read := make([]byte, it.random.Intn(3000)), make([]byte, it.random.Intn(3000))
	var turned Turned
	var err error
	most := len(text)
	if it.random.Intn(2) == 0 {
		turned, err = it.ends[side].Exchange(it.now, addrs[1-side], addrs[side], in, out, text, read)
	} else {
		var texts Batch
		most = 0
		for i := it.random.Intn(5); i > 0; i-- {
			piece := text[:it.random.Intn(len(text)+1)]
			texts.Add(piece)
			most += len(piece)
		}
		turned, err = it.ends[side].ExchangeTexts(it.now, addrs[1-side], addrs[side], in, out, &texts, read)
	}
	it.may(side, "Exchange", err, ErrEnded, ErrClosing, ErrNotConnected, ErrStreamFull)
	if turned.Sent > most || turned.Got > len(read) || (it.freed[side] && (err != ErrNoEnd || out.Len() > 0)) {
		it.t.Fatal(turned, err)
	}
	for i := 0; i < out.Len(); i++ {
		it.seen = append(it.seen, append([]byte{}, out.Segment(i)...))
	}
	for i := 0; i < in.Len() && err != ErrNoEnd; i++ {
		it.may(side, "Exchange", in.Err(i), Refused(1), Refused(2), Refused(3), Refused(4), Refused(5), Refused(6), ErrDropped, ErrNotMine, ErrWithheld)
	}
}

// call makes one call of a side.
func (it *hostile) call(side int) {
	end, now := it.ends[side], it.now
	if it.random.Intn(20) == 0 {
		now = now.Add(-time.Duration(it.random.Int63n(1 << 50)))
	}
	var room [EmitRoom]byte
	length := it.random.Intn(5000)
	switch it.random.Intn(12) {
	case 0, 1, 2:
		arrive := end.Arrive
		if it.random.Intn(4) == 0 {
			arrive = end.ArriveVouched
		}
		_, err := arrive(now, addrs[1-side], addrs[side], it.bytes())
		it.may(side, "Arrive", err, Refused(1), Refused(2), Refused(3), Refused(4), Refused(5), Refused(6), ErrDropped, ErrNotMine, ErrEmitFirst, ErrWithheld)
	case 3, 4, 5:
		end.Window = uint64(it.random.Intn(3)-1) * uint64(length)
		if it.random.Intn(6) == 0 {
			most, large := it.random.Intn(9), make([]byte, 20*length)
			told, err := end.EmitTrain(now, large, most-1)
			if it.may(side, "EmitTrain", err, Refused(33)); told.Segments > 1 && told.Segments >= most || told.Whole.Length > len(large) {
				it.t.Fatal(told, most)
			}
			end.Window = 1<<64 - 1
			return
		}
		it.panics(side, func() {
			if told := end.Emit(now, &room); told.Length > 0 {
				it.seen = append(it.seen, append([]byte{}, room[:told.Length]...))
			}
		})
		end.Window = 1<<64 - 1
	case 6:
		n, err := end.Send(now, make([]byte, length))
		if it.may(side, "Send", err, ErrEnded, ErrClosing, ErrNotConnected, ErrStreamFull); n > length {
			it.t.Fatal(n, length)
		}
	case 7:
		n, err := end.Receive(now, make([]byte, length))
		if it.may(side, "Receive", err, ErrEnded, io.EOF); n > length {
			it.t.Fatal(n, length)
		}
	case 8:
		first, second, err := end.Peek()
		it.may(side, "Peek", err, ErrEnded, io.EOF)
		if n, err := end.Consume(now, length-10); err == nil && (n > len(first)+len(second) || n > length) {
			it.t.Fatal(n, len(first), len(second))
		}
	case 9:
		it.panics(side, func() {
			if at := end.PollAt(); !at.IsZero() && it.random.Intn(2) == 0 && at.After(it.now) {
				it.now = at
			}
			if timer, expired := end.Timeout(it.now); timer > UserTimeout || (timer > 0 && !expired) {
				it.t.Fatal(timer, expired)
			}
		})
	case 10:
		it.panics(side, func() {
			if status := end.Status(); status.Unread > status.Ordered || status.InFlight > status.Queued || status.SndUna > status.SndNxt {
				it.t.Fatal(status)
			}
		})
	default:
		it.use(end, side, now)
	}
}

// use makes a call of the user's without a length.
func (it *hostile) use(end *Connection, side int, now time.Time) {
	switch it.random.Intn(20) {
	case 0:
		end.Free()
		it.freed[side] = true
	case 1:
		it.may(side, "Abort", end.Abort(now), ErrEnded)
	case 2, 3, 4:
		it.may(side, "Close", end.Close(now), ErrEnded, ErrClosing)
	case 5, 6:
		it.may(side, "SetUserTimeout", end.SetUserTimeout(time.Duration(it.random.Int63()-1<<40)))
	case 7, 8:
		it.panics(side, func() { end.ResendFirst(now) })
		it.panics(side, func() { end.Resend(now, uint64(it.random.Intn(4000)), uint64(it.random.Intn(4000))) })
		it.may(side, "SetCongestion", end.SetCongestion(uint32(it.random.Intn(4))), Refused(54), Refused(29))
		policy := DefaultPolicy()
		if it.random.Intn(2) == 0 {
			policy.AckDelay = time.Duration(it.random.Int63() - 1<<40)
			policy.OverrideTimeout = time.Duration(it.random.Int63() - 1<<40)
			policy.AnswerInterval = time.Duration(it.random.Int63() - 1<<40)
		}
		it.may(side, "SetPolicy", end.SetPolicy(policy))
		it.may(side, "SetRecovery", end.SetRecovery(now), ErrInUse, ErrBegun)
		rules := []*KeepAlive{nil, {}, {time.Duration(it.random.Int63() - 1<<40), time.Duration(it.random.Int63() - 1<<40), it.random.Uint32()}}
		it.may(side, "SetKeepAlive", end.SetKeepAlive(now, rules[it.random.Intn(3)]))
		it.may(side, "SetPacing", end.SetPacing(it.random.Intn(2) == 0))
	case 9, 10:
		_, _, err := end.Peer()
		it.may(side, "Peer", err, ErrNotConnected)
	default:
		it.may(side, "Acknowledge", end.Acknowledge(now))
	}
}

// TestHostileCalls makes any calls in any order and at any time, of connections that were freed, too; with segments that were damaged, or
// come again, and numbers out of their ranges. Each answers what it may.
func TestHostileCalls(t *testing.T) {
	it := &hostile{t: t, random: rand.New(rand.NewSource(1)), now: began, answers: map[error]int{}}
	var in, out Batch
	for call, most := 0, calls(t); call < most; call++ {
		side := it.random.Intn(2)
		it.now = it.now.Add(time.Duration(it.random.Int63n(1 << (1 + it.random.Intn(24)))))
		for it.ends[side] == nil || it.random.Intn(500) == 0 {
			it.make(side)
		}
		if it.random.Intn(4) == 0 {
			it.exchange(side, &in, &out)
		} else {
			it.call(side)
		}
		if len(it.seen) > 64 {
			it.seen = it.seen[32:]
		}
	}
	for _, err := range []error{nil, ErrNoEnd, ErrEnded, ErrClosing, ErrDropped, ErrNotMine, Refused(3), Refused(21), Refused(29)} {
		if it.answers[err] == 0 {
			t.Error(err, "was never met")
		}
	}
	for _, end := range it.ends {
		end.Free()
	}
}
