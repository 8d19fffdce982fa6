package tcpcore

import (
	"encoding/binary"
	"errors"
	"reflect"
	"testing"
	"time"
)

// began is when the tests' connections begin.
var began = time.Date(2026, 1, 2, 3, 4, 5, 0, time.UTC)

// opened is two connections, a client's and a server's, of the same configs each time.
func opened(t *testing.T, rules Rules) [2]*Connection {
	config := DefaultConfig(a, 1, 1000)
	config.SendCapacity, config.RecvCapacity = 20000, 20000
	client, err := Connect(config, rules, b, 2, began)
	if err != nil {
		t.Fatal(err)
	}
	config.Addr, config.Port, config.ISN = b, 2, 5000
	server, err := Listen(config, rules, began)
	if err != nil {
		t.Fatal(err)
	}
	return [2]*Connection{client, server}
}

// emittedBy is all that a connection emits.
func emittedBy(connection *Connection, now time.Time) (out []emitted) {
	var room [EmitRoom]byte
	for {
		told := connection.Emit(now, &room)
		if told.Length == 0 {
			return
		}
		out = append(out, emitted{told.To, string(room[:told.Length])})
	}
}

// established is two connections that are open.
func established(t *testing.T) [2]*Connection { return establishedBy(t, DefaultRules()) }

// establishedBy is the same with these rules.
func establishedBy(t *testing.T, rules Rules) [2]*Connection {
	both := opened(t, rules)
	handshake(t, both)
	return both
}

// handshake has both come to ESTABLISHED.
func handshake(t *testing.T, both [2]*Connection) {
	for turn := 0; turn < 3; turn++ {
		for _, it := range emittedBy(both[turn%2], began) {
			if _, err := both[1-turn%2].Arrive(began, [2]Addr{a, b}[turn%2], it.to, []byte(it.segment)); err != nil {
				t.Fatal(err)
			}
		}
	}
	if !Established(both[0].Status()) || !Established(both[1].Status()) {
		t.Fatal(both[0].Status(), both[1].Status())
	}
}

var addrs = [2]Addr{a, b}

// Over a good link nothing expires but TIME-WAIT, 4 minutes behind the last segment, and all comes in the round trips that it takes: 125,000
// bytes at 20,000 each 40 ms are 7 of them, beside the handshake and the FINs. A link that loses and reorders has the timers do what they
// do. And each turn by single calls is what Exchange does.
func TestConnectionCarries(t *testing.T) {
	wire := carries(t, 0, 0, 0, DefaultRules())
	if took := wire.now.Sub(began); took < 4*time.Minute || took > 4*time.Minute+9*40*time.Millisecond {
		t.Fatal(took)
	}
	for _, timer := range wire.expired {
		if timer != TimeWait {
			t.Fatal(wire.expired)
		}
	}
	met := map[uint32]int{}
	for seed := int64(1); seed < 9; seed++ {
		for _, timer := range carries(t, seed, 15, 10, DefaultRules()).expired {
			met[timer]++
		}
	}
	if met[Retransmit] == 0 || met[Reorder] == 0 || met[TimeWait] == 0 || met[UserTimeout] != 0 {
		t.Fatal(met)
	}
}

// RFC 6298, 5.5: the timeout of a second is doubled each time, up to 60; RFC 9293, 3.8.3: a SYN is given up after 3 minutes. Rules say
// something else.
func TestConnectionSyn(t *testing.T) {
	short := DefaultRules()
	short.First, short.Least, short.Greatest, short.Handshake = 200*time.Millisecond, 100*time.Millisecond, 2*time.Second, 10*time.Second
	for _, it := range []struct {
		rules   Rules
		seconds []float64
		at      time.Duration
	}{{DefaultRules(), []float64{0, 1, 3, 7, 15, 31, 63, 123}, 180 * time.Second},
		{short, []float64{0, 0.2, 0.6, 1.4, 3, 5, 7, 9}, 10 * time.Second}} {
		client := opened(t, it.rules)[0]
		now, sent, last := began, []float64{}, uint32(0)
		for {
			for range emittedBy(client, now) {
				sent = append(sent, now.Sub(began).Seconds())
			}
			at := client.PollAt()
			if at.IsZero() {
				break
			}
			if timer, expired := client.Timeout(at.Add(-time.Microsecond)); expired {
				t.Fatal(timer, at)
			}
			timer, expired := client.Timeout(at)
			if !expired {
				t.Fatal(at)
			}
			now, last = at, timer
		}
		if !reflect.DeepEqual(sent, it.seconds) || now.Sub(began) != it.at || last != UserTimeout || client.Status().Ending != WasAborted {
			t.Fatal(sent, now, last, client.Status())
		}
		if _, err := client.Send(now, []byte("x")); err != ErrEnded {
			t.Fatal(err)
		}
		client.Free()
	}
}

// What Emit reports, a window that holds back, an acknowledgement that is asked for, and bytes that are lent.
func TestConnectionReports(t *testing.T) {
	both := established(t)
	defer both[0].Free()
	defer both[1].Free()
	var room [EmitRoom]byte
	if _, err := both[0].Send(began, make([]byte, 3000)); err != nil {
		t.Fatal(err)
	}
	both[0].Window = 1460
	if told := both[0].Emit(began, &room); told != (Emission{b, 1480, 1, 1460}) {
		t.Fatal(told)
	}
	if told := both[0].Emit(began, &room); told != (Emission{}) {
		t.Fatal(told)
	}
	both[0].Window = 2920
	segment := room
	if told := both[0].Emit(began, &room); told != (Emission{b, 1480, 1461, 1460}) {
		t.Fatal(told)
	}
	// Rule 18: all of it is taken.
	if report, err := both[1].Arrive(began, a, b, segment[:1480]); report != (ArriveReport{Rule: 18, Brought: InOrder, WindowTaken: true}) || err != nil {
		t.Fatal(report, err)
	}
	first, second, err := both[1].Peek()
	if len(first)+len(second) != 1460 || err != nil {
		t.Fatal(len(first), len(second), err)
	}
	if n, err := both[1].Consume(began, 460); n != 460 || err != nil {
		t.Fatal(n, err)
	}
	if n, err := both[1].Consume(began, -1); n != 0 || err != nil {
		t.Fatal(n, err)
	}
	emittedBy(both[1], began)
	if err := both[1].Acknowledge(began); err != nil || len(emittedBy(both[1], began)) != 1 {
		t.Fatal(err)
	}
	if _, err := both[1].Arrive(began, b, a, segment[:1480]); err != ErrNotMine {
		t.Fatal(err)
	}
	if report, err := both[1].Arrive(began, a, b, segment[:1480]); err != ErrDropped || !report.AtOnce {
		t.Fatal(report, err)
	}
	if err := both[0].Close(began); err != nil || both[0].Close(began) != ErrClosing {
		t.Fatal(err)
	}
	if _, err := both[0].Send(began, room[:1]); err != ErrClosing {
		t.Fatal(err)
	}
	if err := both[0].Abort(began); err != nil || both[0].Abort(began) != ErrEnded {
		t.Fatal(err)
	}
}

// From an expiry on nothing is taken until what was due has gone out; a reset in TIME-WAIT counts as lost (RFC 1337, 3).
func TestConnectionEmitsFirst(t *testing.T) {
	both := opened(t, DefaultRules())
	defer both[0].Free()
	defer both[1].Free()
	now := began.Add(time.Second)
	syn := emittedBy(both[0], began)
	if timer, expired := both[0].Timeout(now); timer != Retransmit || !expired {
		t.Fatal(timer, expired)
	}
	if _, err := both[0].Arrive(now, b, a, []byte(syn[0].segment)); err != ErrEmitFirst {
		t.Fatal(err)
	}
	if again := emittedBy(both[0], now); !reflect.DeepEqual(again, syn) {
		t.Fatal(again, syn)
	}
	// Exchange does so by itself: the SYN goes out again, and then the segment is handed in, which is another connection's.
	now = now.Add(2 * time.Second)
	if timer, expired := both[0].Timeout(now); timer != Retransmit || !expired {
		t.Fatal(timer, expired)
	}
	var in, out Batch
	in.Add([]byte(syn[0].segment))
	turned, err := both[0].Exchange(now, b, a, &in, &out, nil, nil)
	if err != nil || in.Err(0) != ErrNotMine || out.Len() != 1 || string(out.Segment(0)) != syn[0].segment || turned.Expired != 0 {
		t.Fatal(err, in.Err(0), out.Len(), turned)
	}
	// Both close, and the second FIN's acknowledgement begins TIME-WAIT.
	open := established(t)
	defer open[0].Free()
	defer open[1].Free()
	for side := range open {
		if err := open[side].Close(began); err != nil {
			t.Fatal(err)
		}
		for turn := side; turn < side+2; turn++ {
			for _, it := range emittedBy(open[turn%2], began) {
				open[1-turn%2].Arrive(began, addrs[turn%2], it.to, []byte(it.segment))
			}
		}
	}
	reset := make([]byte, 20)
	reset[13] = 4
	if _, err := open[0].Arrive(began, b, a, reset); err != ErrWithheld || open[0].Status().Phase != InTimeWait {
		t.Fatal(err, open[0].Status().Phase)
	}
}

func TestConnectionRefused(t *testing.T) {
	rules := DefaultRules()
	rules.Least = 0
	config := DefaultConfig(a, 7, 1)
	small := config
	small.MSS = 1
	for wanted, make := range map[Refused]func() (*Connection, error){
		29: func() (*Connection, error) { return Listen(config, rules, began) },
		23: func() (*Connection, error) { return Connect(small, DefaultRules(), b, 1, began) },
		26: func() (*Connection, error) { return Listen(Config{}, DefaultRules(), began) },
		27: func() (*Connection, error) { return Listen(Config{Addr: a}, DefaultRules(), began) },
		21: func() (*Connection, error) { return Listen(Config{Addr: a, Port: 1, MSS: 64}, DefaultRules(), began) },
	} {
		if connection, err := make(); connection != nil || !errors.Is(err, wanted) {
			t.Fatal(wanted, err)
		}
	}
	both := opened(t, DefaultRules())
	defer both[1].Free()
	var in, out Batch
	server, room := both[1], [EmitRoom]byte{}
	if _, err := server.Send(began, room[:1]); err != ErrNotConnected {
		t.Fatal(err)
	}
	if _, err := server.Exchange(began, a, b, &in, &in, nil, nil); err != Refused(38) {
		t.Fatal(err)
	}
	// A segment that is none ends no turn, and no call of the user's does.
	in.Add(room[:10])
	if _, err := server.Exchange(began, a, b, &in, &out, room[:1], nil); err != ErrNotConnected || in.Err(0) != Refused(1) || out.Len() != 0 {
		t.Fatal(err, in.Err(0))
	}
	freed := both[0]
	freed.Free()
	freed.Free()
	_, arrived := freed.Arrive(began, b, a, room[:20])
	_, sent := freed.Send(began, room[:1])
	_, received := freed.Receive(began, room[:1])
	_, _, peeked := freed.Peek()
	_, consumed := freed.Consume(began, 1)
	_, exchanged := freed.Exchange(began, b, a, &in, &out, nil, nil)
	_, trained := freed.EmitTrain(began, room[:], 1)
	for _, err := range []error{arrived, trained, sent, received, peeked, consumed, exchanged, freed.Acknowledge(began), freed.Close(began), freed.Abort(began)} {
		if err != ErrNoEnd {
			t.Fatal(err)
		}
	}
	for at, call := range []func(){func() { freed.Emit(began, &room) }, func() { freed.PollAt() }, func() { freed.Timeout(began) }, func() { freed.Status() }} {
		if found := refusal(call); found != ErrNoEnd {
			t.Fatal(at, found)
		}
	}
}

// blind is a segment of somebody who knows the server's address and port and the client's, without a checksum (RFC 9293, 3.1).
func blind(seq, ack uint32, text string) []byte {
	segment := []byte{0, 2, 0, 1}
	segment = binary.BigEndian.AppendUint32(segment, seq)
	segment = binary.BigEndian.AppendUint32(segment, ack)
	return append(append(segment, 5<<4, 0x10, 4, 0, 0, 0, 0, 0), text...)
}

// TestConnectionGuard: an acknowledgement more than the guard's reach behind SND.UNA comes with nothing that is taken (RFC 5961, 5.2); without a
// guard it does (RFC 9293, 3.10.7.4, fifth). What isn't vouched for is summed.
func TestConnectionGuard(t *testing.T) {
	for _, it := range []struct {
		guard, reach uint32
		wanted       error
	}{{Guard, Guard, ErrDropped}, {0, Guard, ErrDropped}, {5000000, 5000000, ErrDropped}, {NoGuard, Guard, nil}} {
		rules := DefaultRules()
		if rules.Guard != Guard {
			t.Fatal(rules)
		}
		rules.Guard = it.guard
		client := establishedBy(t, rules)[0]
		if _, err := client.Arrive(began, b, a, blind(5001, 1001, "x")); err != Refused(3) {
			t.Fatal(err)
		}
		if _, err := client.ArriveVouched(began, b, a, blind(5001, 1000-it.reach, "x")); err != it.wanted {
			t.Fatal(it, err)
		}
		if _, err := client.ArriveVouched(began, b, a, blind(5001, 1001-it.reach, "xy")); err != nil {
			t.Fatal(it, err)
		}
	}
}

// TestArriveBy: an end's guard is that of each call.
func TestArriveBy(t *testing.T) {
	var ends [2]*End
	for side, config := range []Config{DefaultConfig(a, 1, 1000), DefaultConfig(b, 2, 5000)} {
		end, err := New(config)
		if err != nil {
			t.Fatal(err)
		}
		ends[side] = end
	}
	if err := ends[1].Listen(); err != nil {
		t.Fatal(err)
	}
	if err := ends[0].Connect(b, 2); err != nil {
		t.Fatal(err)
	}
	var room [EmitRoom]byte
	for turn := 0; turn < 3; turn++ {
		to, length := ends[turn%2].Emit(&room)
		if _, err := ends[1-turn%2].ArriveBy([2]Addr{a, b}[turn%2], to, room[:length], Guard, false); err != nil {
			t.Fatal(err)
		}
	}
	first := uint32(1000)
	old := blind(5001, first-Guard, "x")
	if _, err := ends[0].ArriveBy(b, a, old, Guard, true); err != ErrDropped {
		t.Fatal(err)
	}
	if _, err := ends[0].ArriveBy(b, a, old, NoGuard, true); err != nil {
		t.Fatal(err)
	}
}

// TestConnectionPeer: who listens knows the peer by its SYN.
func TestConnectionPeer(t *testing.T) {
	listening := opened(t, DefaultRules())
	if addr, port, err := listening[1].Peer(); err != ErrNotConnected || addr != (Addr{}) || port != 0 {
		t.Fatal(addr, port, err)
	}
	if addr, port, err := listening[0].Peer(); err != nil || addr != b || port != 2 {
		t.Fatal(addr, port, err)
	}
	if addr, port, err := established(t)[1].Peer(); err != nil || addr != a || port != 1 {
		t.Fatal(addr, port, err)
	}
}

// TestConnectionResends: the first segment in flight goes out again, as it did.
func TestConnectionResends(t *testing.T) {
	client := established(t)[0]
	if client.ResendFirst(began) {
		t.Fatal("nothing is in flight")
	}
	if _, err := client.Send(began, []byte("text")); err != nil {
		t.Fatal(err)
	}
	first := emittedBy(client, began)
	if !client.ResendFirst(began) {
		t.Fatal("text is in flight")
	}
	if again := emittedBy(client, began); len(first) != 1 || !reflect.DeepEqual(again, first) {
		t.Fatal(first, again)
	}
	// The last two bytes alone, and nothing behind them.
	if !client.Resend(began, 3, 9) || client.Resend(began, 5, 9) {
		t.Fatal("two bytes are in flight there")
	}
	if again := emittedBy(client, began); len(again) != 1 || again[0].segment[20:] != "xt" {
		t.Fatal(again)
	}
}

// TestConnectionUserTimeout: a limit that is set later counts from where the text went out.
func TestConnectionUserTimeout(t *testing.T) {
	client := established(t)[0]
	if err := client.SetUserTimeout(100 * time.Second); err != nil {
		t.Fatal(err)
	}
	if _, err := client.Send(began, []byte("text")); err != nil {
		t.Fatal(err)
	}
	for now, last := began, began.Add(1000*time.Second); ; now = client.PollAt() {
		emittedBy(client, now)
		if timer, expired := client.Timeout(now); expired && timer == UserTimeout {
			if now.Sub(began) < 100*time.Second || client.Status().Ending != WasAborted {
				t.Fatal(now.Sub(began), client.Status())
			}
			return
		}
		emittedBy(client, now)
		if now.After(last) || client.PollAt().IsZero() {
			t.Fatal("never given up")
		}
	}
}

// TestConnectionFarTimes: times that lie further apart than a Duration can say are told apart, too.
func TestConnectionFarTimes(t *testing.T) {
	config := DefaultConfig(a, 1, 1000)
	connection, err := Connect(config, DefaultRules(), b, 2, time.Time{})
	if err != nil {
		t.Fatal(err)
	}
	for turn := 0; turn < 2; turn++ {
		emittedBy(connection, began)
		connection.Timeout(began)
	}
	at := connection.PollAt()
	if !at.After(began) || at.After(began.Add(time.Minute)) {
		t.Fatal(at)
	}
	if timer, expired := connection.Timeout(at); !expired || timer != Retransmit {
		t.Fatal(timer, expired)
	}
}

// Times before the beginning count as it, and a limit that no Duration can tell is further away than any can.
func TestConnectionTimes(t *testing.T) {
	client := opened(t, DefaultRules())[0]
	defer client.Free()
	early := began.Add(-time.Hour)
	emittedBy(client, early)
	if at := client.PollAt(); !at.Equal(began.Add(time.Second)) {
		t.Fatal(at)
	}
	for at, wanted := range map[uint64]time.Time{1500000: began.Add(1500 * time.Millisecond), 1<<64 - 1: {}} {
		if found := client.timeOf(at); !found.Equal(wanted) {
			t.Fatal(at, found)
		}
	}
	if found := client.timeOf(1<<64 - 2); !found.After(began.Add(1<<63 - 1)) {
		t.Fatal(found)
	}
}

// A turn in a steady state allocates nothing.
func TestConnectionKeepsItsMemory(t *testing.T) {
	both := established(t)
	defer both[0].Free()
	defer both[1].Free()
	var there, back Batch
	now, text, read := began, make([]byte, 2000), make([]byte, 5000)
	turn := func() {
		now = now.Add(time.Millisecond)
		there.Reset()
		_, err := both[0].Exchange(now, b, a, &back, &there, text, nil)
		back.Reset()
		told, same := both[1].Exchange(now, a, b, &there, &back, nil, read)
		if err != nil || same != nil || told.Got != len(text) || there.Len() != 2 || back.Len() != 1 {
			t.Fatal(err, same, told, there.Len(), back.Len())
		}
	}
	if count := testing.AllocsPerRun(100, turn); count != 0 {
		t.Error(count)
	}
}
