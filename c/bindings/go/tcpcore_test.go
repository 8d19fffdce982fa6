package tcpcore

import (
	"bytes"
	"errors"
	"io"
	"strings"
	"testing"
)

var a, b = Addr{10, 0, 0, 1}, Addr{10, 0, 0, 2}

func made(t *testing.T, addr Addr) *End {
	end, err := New(Config{Addr: addr, Port: 7, MSS: 1000, ISN: 1, SendCapacity: 5000, RecvCapacity: 5000, Shift: -1, Sack: true})
	if err != nil {
		t.Fatal(err)
	}
	return end
}

var count int

// carry loses each fourth segment.
func carry(from *End, src Addr, to *End) (sent int) {
	var room [EmitRoom]byte
	for {
		dst, length := from.Emit(&room)
		if length == 0 {
			return
		}
		sent, count = sent+1, count+1
		if count%4 != 0 {
			to.Arrive(src, dst, room[:length])
		}
	}
}

func TestText(t *testing.T) {
	one, other := made(t, a), made(t, b)
	defer one.Free()
	defer other.Free()
	text, got, sent := make([]byte, 100000), []byte{}, 0
	for i := range text {
		text[i] = byte(i * 7)
	}
	if other.Listen() != nil || one.Connect(b, 7) != nil {
		t.Fatal("not open")
	}
	for ended := false; !ended; {
		if Established(one.Status()) && sent < len(text) {
			taken, err := one.Send(text[sent:])
			if err != nil {
				t.Fatal(err)
			}
			if sent += taken; sent == len(text) {
				one.Close()
			}
		}
		if carry(one, a, other)+carry(other, b, one) == 0 {
			for timer := uint32(0); timer < 2; timer++ {
				one.Timer(timer)
				other.Timer(timer)
			}
		}
		for out := make([]byte, 3000); ; {
			n, err := other.Receive(out)
			got = append(got, out[:n]...)
			ended = err == io.EOF
			if n == 0 {
				break
			}
		}
	}
	if !bytes.Equal(got, text) {
		t.Fatal("other bytes")
	}
}

// connected is two ends, of the same config each time.
func connected(t *testing.T) (one, other *End) {
	one, other = made(t, a), made(t, b)
	if other.Listen() != nil || one.Connect(b, 7) != nil {
		t.Fatal("not open")
	}
	var room [EmitRoom]byte
	ends, addrs := []*End{one, other}, []Addr{a, b}
	for turn := 0; turn < 3; turn++ {
		dst, length := ends[turn%2].Emit(&room)
		ends[1-turn%2].Arrive(addrs[turn%2], dst, room[:length])
	}
	return
}

// transfer emits all that is due of one and of the end beside it: the same bytes. It tells where the next segment begins.
func transfer(t *testing.T, one, other, third, fourth *End, position uint64) uint64 {
	for {
		var room, beside [EmitRoom]byte
		dst, length := one.Emit(&room)
		told := third.Transmit(&beside)
		if told.To != dst || told.Length != length || room != beside {
			t.Fatal(told, dst, length)
		}
		if length == 0 {
			return position
		}
		kind := uint32(NewText)
		if told.Count == 0 {
			kind = Fin
		}
		if told.Kind != kind || told.Position != position {
			t.Fatal(told)
		}
		position += uint64(told.Count)
		atOnce, err := other.Arrive(a, dst, room[:length])
		report, same := fourth.ArriveWithReport(a, dst, beside[:length])
		// Rule 18: all of it is taken.
		if report != (ArriveReport{AtOnce: atOnce, Rule: 18, Brought: InOrder, WindowTaken: true}) || same != err {
			t.Fatal(report, err, same)
		}
	}
}

// Of two pairs of ends one is used by the calls that report and lend: the same bytes and states. Of each 3000 bytes 2800 are read at
// once, so that those of the second time don't lie in one piece.
func TestBeside(t *testing.T) {
	one, other := connected(t)
	third, fourth := connected(t)
	for _, end := range []*End{one, other, third, fourth} {
		defer end.Free()
	}
	text, got, position, inTwo := make([]byte, 6000), []byte{}, uint64(1), 0
	for i := range text {
		text[i] = byte(i*7 + i>>8)
	}
	if first, second, err := fourth.Peek(); len(first)+len(second) > 0 || err != nil {
		t.Fatal(first, second, err)
	}
	for round := 0; round < 2; round++ {
		for _, end := range []*End{one, third} {
			if taken, err := end.Send(text[3000*round : 3000*round+3000]); taken != 3000 || err != nil {
				t.Fatal(taken, err)
			}
			if round == 1 && end.Close() != nil {
				t.Fatal("not closed")
			}
		}
		position = transfer(t, one, other, third, fourth, position)
		out := make([]byte, 700)
		for i := 0; i < 4+2*round; i++ {
			n, err := other.Receive(out)
			first, second, same := fourth.Peek()
			if err != same || !bytes.HasPrefix(append(append([]byte{}, first...), second...), out[:n]) {
				t.Fatal(n, err, same)
			}
			if len(second) > 0 {
				inTwo++
			}
			if taken, err := fourth.Consume(700); taken != n || err != nil {
				t.Fatal(taken, err)
			}
			if got = append(got, out[:n]...); (err == io.EOF) != (i == 5) {
				t.Fatal(i, err)
			}
		}
		for _, ends := range [][2]*End{{other, one}, {fourth, third}} {
			var room [EmitRoom]byte
			dst, length := ends[0].Emit(&room)
			if _, err := ends[1].Arrive(b, dst, room[:length]); err != nil {
				t.Fatal(err)
			}
		}
	}
	if !bytes.Equal(got, text) || inTwo == 0 || fourth.Status() != other.Status() || third.Status() != one.Status() {
		t.Fatal("other bytes")
	}
}

// Three segments are lost. An acknowledgement goes out alone before what is due again, and of that the first segment alone.
func TestPacing(t *testing.T) {
	one, other := connected(t)
	defer one.Free()
	defer other.Free()
	var room [EmitRoom]byte
	if _, length := one.EmitAcknowledgement(&room); one.ResendFirst() || length != 0 {
		t.Fatal(length)
	}
	one.Send(make([]byte, 3000))
	for position := uint64(1); position < 3001; position += 1000 {
		if told := one.Transmit(&room); told.Kind != NewText || told.Position != position || told.Count != 1000 {
			t.Fatal(told)
		}
	}
	other.Send([]byte("x"))
	dst, length := other.Emit(&room)
	if _, err := one.Arrive(b, dst, room[:length]); !one.Timer(Retransmit) || length != 21 || err != nil {
		t.Fatal(length, err)
	}
	// The other's number is 1, its text 2, and 3 is next.
	if dst, length := one.EmitAcknowledgement(&room); dst != b || length != 20 || room[11] != 3 {
		t.Fatal(dst, length, room[:20])
	}
	if _, length := one.EmitAcknowledgement(&room); length != 0 {
		t.Fatal(length)
	}
	for turn := 0; turn < 2; turn++ {
		if told := one.Transmit(&room); told.Kind != TextAgain || told.Position != 1 || told.Count != 1000 {
			t.Fatal(told)
		}
		if turn == 0 && !one.ResendFirst() {
			t.Fatal("nothing is in flight")
		}
	}
	if told := one.Transmit(&room); told != (Transmit{}) {
		t.Fatal(told)
	}
}

// summed is the complement of the ones' complement sum over a segment from a to b, as a device makes it: over its bytes, in which the
// checksum field has the sum of the pseudo-header (RFC 1071).
func summed(segment []byte) (high, low byte) {
	sum := uint32(0)
	for i, it := range segment {
		sum += uint32(it) << (8 * (1 - i%2))
	}
	for sum>>16 != 0 {
		sum = sum&0xffff + sum>>16
	}
	return byte(^sum >> 8), byte(^sum)
}

// Of two pairs of ends one is used by the calls for a device that sums and cuts: the same text, and the same states.
func TestTrain(t *testing.T) {
	one, other := connected(t)
	third, fourth := connected(t)
	for _, end := range []*End{one, other, third, fourth} {
		defer end.Free()
	}
	text := make([]byte, 3500)
	for i := range text {
		text[i] = byte(i * 7)
	}
	for _, end := range []*End{one, third} {
		if taken, err := end.Send(text); taken != len(text) || err != nil {
			t.Fatal(taken, err)
		}
	}
	room := make([]byte, TrainRoom)
	if train, err := third.EmitTrain(room[:EmitRoom-1], 64); train.Segments != 0 || !errors.Is(err, Refused(33)) {
		t.Fatal(train, err)
	}
	train, err := third.EmitTrain(room, 64)
	whole := Transmit{To: b, Kind: NewText, Length: 3520, Count: 3500, Position: 1}
	if train != (Train{whole, 20, 1000, 4}) || err != nil || !bytes.Equal(room[20:3520], text) {
		t.Fatal(train, err)
	}
	for i := 0; i < train.Segments; i++ {
		var small [EmitRoom]byte
		dst, length := one.Emit(&small)
		from := 20 + 1000*i
		if i < 3 && length != 1020 || i == 3 && length != 520 || !bytes.Equal(small[20:length], room[from:from+length-20]) {
			t.Fatal(i, length)
		}
		other.Arrive(a, dst, small[:length])
	}
	report, err := fourth.ArriveVouchedWithReport(a, b, room[:3520])
	if report.Rule != 18 || report.Brought != InOrder || err != nil {
		t.Fatal(report, err)
	}
	if train, err := third.EmitTrain(room, -1); train != (Train{}) || err != nil {
		t.Fatal(train, err)
	}
	var small, beside [EmitRoom]byte
	dst, length := other.Emit(&small)
	if to, partial := fourth.EmitPartial(&beside); to != dst || partial != length || length != 20 || small == beside {
		t.Fatal(to, partial, length)
	}
	beside[16], beside[17] = summed(beside[:length])
	if small != beside || fourth.Status() != other.Status() || third.Status() != one.Status() {
		t.Fatal(small[:20], beside[:20])
	}
}

func TestRefusals(t *testing.T) {
	_, err := New(Config{Addr: a, Port: 1, MSS: 1, SendCapacity: 1, RecvCapacity: 1})
	if err == nil || err.Error() != "the maximum segment size isn't from 64 to 1,460 bytes" {
		t.Fatal(err)
	}
	for config, wanted := range map[Config]Refused{{Port: 1, MSS: 1}: 26, {Addr: a, MSS: 1}: 27,
		{Addr: a, Port: 1, MSS: 64, SendCapacity: 1, RecvCapacity: 1, Shift: -1, Runs: MaxRuns + 1}: 28} {
		if _, err := New(config); !errors.Is(err, wanted) {
			t.Fatal(err)
		}
	}
	end := made(t, a)
	defer end.Free()
	if _, err := end.Send([]byte("x")); !errors.Is(err, Refused(11)) {
		t.Fatal(err)
	}
	if _, err := end.Arrive(b, a, nil); !errors.Is(err, Refused(1)) {
		t.Fatal(err)
	}
	if _, err := end.ArriveWithReport(b, a, nil); !errors.Is(err, Refused(1)) {
		t.Fatal(err)
	}
	if _, _, err := end.Peek(); !errors.Is(err, Refused(11)) {
		t.Fatal(err)
	}
	if n, err := end.Consume(-1); n != 0 || !errors.Is(err, Refused(11)) {
		t.Fatal(n, err)
	}
	if n, err := end.Receive(nil); n != 0 || !errors.Is(err, Refused(11)) {
		t.Fatal(n, err)
	}
}

// refusal is what the call panics with, or nil.
func refusal(call func()) (found any) {
	defer func() { found = recover() }()
	call()
	return nil
}

// TestFreed: after Free no call says that nothing is due.
func TestFreed(t *testing.T) {
	end := made(t, a)
	end.Free()
	end.Free()
	var room [EmitRoom]byte
	const noEnd = Refused(31)
	calls := []func(){
		func() { end.Emit(&room) }, func() { end.EmitPartial(&room) }, func() { end.EmitAcknowledgement(&room) },
		func() { end.Transmit(&room) }, func() { end.ResendFirst() }, func() { end.Resend(0, 9) }, func() { end.Timer(Retransmit) }, func() { end.Timers() },
		func() { end.Status() },
	}
	for at, call := range calls {
		if found := refusal(call); found != noEnd {
			t.Fatal(at, found)
		}
	}
	_, arrived := end.Arrive(b, a, room[:1])
	_, sent := end.Send(room[:1])
	_, received := end.Receive(room[:1])
	_, train := end.EmitTrain(room[:], 1)
	for _, err := range []error{arrived, sent, received, train, end.Listen(), end.Close()} {
		if err != noEnd {
			t.Fatal(err)
		}
	}
	if found := refusal(func() { made(t, a).Timer(3) }); found != Refused(34) {
		t.Fatal(found)
	}
}

// TestDefaults: the SYN has an MSS of 1,460 bytes, permits selective acknowledgement and offers no scaling (RFC 9293, 3.7.1; RFC 2018, 2).
func TestDefaults(t *testing.T) {
	end, err := New(DefaultConfig(a, 7, 1))
	if err != nil || end.Connect(b, 7) != nil {
		t.Fatal(err)
	}
	defer end.Free()
	var room [EmitRoom]byte
	_, length := end.Emit(&room)
	if options := []byte{2, 4, 5, 180, 1, 1, 4, 2}; length != 28 || !bytes.Equal(room[20:28], options) || room[14] != 255 || room[15] != 255 {
		t.Fatal(room[:length])
	}
	for capacity, shift := range map[uint64]int8{1: -1, 65535: -1, 65536: 1, 131071: 1, 131072: 2, 1048575: 4, 1048576: 5} {
		if found := LeastShift(capacity); found != shift {
			t.Fatal(capacity, found)
		}
	}
}

// TestRuns: an end keeps as many runs of bytes out of order as its Config says, and not one more; 0 stands for Runs.
func TestRuns(t *testing.T) {
	for _, runs := range []uint16{0, 1, 4, 16, 300, MaxRuns} {
		most := int(runs)
		if runs == 0 {
			most = Runs
		}
		config := DefaultConfig(a, 7, 1)
		config.MSS, config.SendCapacity, config.RecvCapacity, config.Shift, config.Runs = 64, 1<<20, 1<<20, LeastShift(1<<20), runs
		from, err := New(config)
		if err != nil {
			t.Fatal(err)
		}
		config.Addr = b
		to, err := New(config)
		if err != nil || to.Listen() != nil || from.Connect(b, 7) != nil {
			t.Fatal(err)
		}
		var room [EmitRoom]byte
		carry := func(one *End, src Addr, other *End) {
			dst, length := one.Emit(&room)
			other.Arrive(src, dst, room[:length])
		}
		carry(from, a, to)
		carry(to, b, from)
		carry(from, a, to)
		if taken, err := from.Send(make([]byte, 2*(most+1)*64)); taken != 2*(most+1)*64 || err != nil {
			t.Fatal(taken, err)
		}
		kept := 0
		for i := 0; i < 2*(most+1); i++ {
			sent := from.Transmit(&room)
			if i%2 == 0 {
				continue
			}
			if report, err := to.ArriveWithReport(a, b, room[:sent.Length]); err == nil && report.Brought == Held {
				kept++
			}
			carry(to, b, from)
		}
		if kept != most {
			t.Fatal(kept, most)
		}
		from.Free()
		to.Free()
	}
}

func TestBuild(t *testing.T) {
	if build := Build(); !strings.HasSuffix(build, "machine code") && !strings.HasPrefix(build, "portable C") {
		t.Errorf("the library is %q", build)
	}
}
