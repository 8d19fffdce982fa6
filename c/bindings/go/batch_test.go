package tcpcore

import (
	"bytes"
	"errors"
	"math/rand"
	"reflect"
	"testing"
)

// arrived is what became of a segment.
type arrived struct {
	atOnce bool
	err    error
}

// emitted is a segment that was emitted.
type emitted struct {
	to      Addr
	segment string
}

// emitEach is EmitAll by single calls.
func emitEach(end *End) (out []emitted) {
	var room [EmitRoom]byte
	for {
		to, length := end.Emit(&room)
		if length == 0 {
			return
		}
		out = append(out, emitted{to, string(room[:length])})
	}
}

// emitOne is one call of Emit.
func emitOne(end *End) []emitted {
	var room [EmitRoom]byte
	to, length := end.Emit(&room)
	if length == 0 {
		return nil
	}
	return []emitted{{to, string(room[:length])}}
}

// turnEach is Turn by single calls, or ArriveAll.
func turnEach(end *End, src, dst Addr, segments []string, emits bool) (answers []arrived, out []emitted) {
	for i, segment := range segments {
		atOnce, err := end.Arrive(src, dst, []byte(segment))
		answers = append(answers, arrived{atOnce, err})
		if emits && (atOnce || i == len(segments)-1) {
			out = append(out, emitEach(end)...)
		}
	}
	if emits && len(segments) == 0 {
		out = emitEach(end)
	}
	return
}

// turnOnce is the same by the calls of batches.
func turnOnce(t *testing.T, end *End, src, dst Addr, segments []string, emits bool, in, out *Batch) (answers []arrived, sent []emitted) {
	in.Reset()
	out.Reset()
	for _, segment := range segments {
		in.Add([]byte(segment))
	}
	err := error(nil)
	switch {
	case !emits:
		err = end.ArriveAll(src, dst, in)
	case len(segments) == 0:
		err = end.EmitAll(out)
	default:
		err = end.Turn(src, dst, in, out)
	}
	if err != nil || in.Len() != len(segments) {
		t.Fatal(err, in.Len())
	}
	for i := 0; i < in.Len(); i++ {
		answers = append(answers, arrived{in.AtOnce(i), in.Err(i)})
	}
	for i := 0; i < out.Len(); i++ {
		sent = append(sent, emitted{out.To(i), string(out.Segment(i))})
	}
	return
}

// spoiled is what the wire makes of segments: it loses some, doubles and breaks some, and changes their order.
func spoiled(random *rand.Rand, out []emitted) (segments []string) {
	for _, it := range out {
		switch random.Intn(12) {
		case 0:
		case 1:
			segments = append(segments, it.segment, it.segment)
		case 2:
			broken := []byte(it.segment)
			broken[random.Intn(len(broken))] ^= 1 << random.Intn(8)
			segments = append(segments, string(broken[:random.Intn(len(broken)+1)]), it.segment)
		default:
			segments = append(segments, it.segment)
		}
	}
	if random.Intn(4) == 0 {
		random.Shuffle(len(segments), func(i, k int) { segments[i], segments[k] = segments[k], segments[i] })
	}
	return
}

// Of two pairs of ends, with the same calls, segments and timers, one is used by single calls and one by batches: the same answers,
// segments, bytes and states, over a wire that loses, doubles, breaks and reorders.
func TestBatchIsTheCalls(t *testing.T) {
	kinds := map[error]int{}
	sent, turns, atOnce := 0, 0, 0
	for seed := int64(0); seed < 20; seed++ {
		random := rand.New(rand.NewSource(seed))
		one, other := connected(t)
		third, fourth := connected(t)
		each, once, addrs := []*End{one, other}, []*End{third, fourth}, []Addr{a, b}
		var in, out Batch
		waiting, text, read := [2][]string{}, make([]byte, 5000), [2][]byte{make([]byte, 5000), make([]byte, 5000)}
		random.Read(text)
		for step := 0; step < 400; step++ {
			i := random.Intn(2)
			switch random.Intn(8) {
			case 0:
				count := random.Intn(len(text))
				taken, err := each[i].Send(text[:count])
				if beside, same := once[i].Send(text[:count]); beside != taken || same != err {
					t.Fatal(seed, step, taken, beside, err, same)
				}
			case 1:
				count, err := each[i].Receive(read[0])
				beside, same := once[i].Receive(read[1])
				if beside != count || same != err || !bytes.Equal(read[0][:count], read[1][:count]) {
					t.Fatal(seed, step, count, beside, err, same)
				}
			case 2:
				timer := uint32(random.Intn(2))
				if each[i].Timer(timer) != once[i].Timer(timer) {
					t.Fatal(seed, step, timer)
				}
			case 3:
				if step > 360 && each[i].Close() != once[i].Close() {
					t.Fatal(seed, step)
				}
			default:
				emits, segments := random.Intn(4) > 0, waiting[i]
				answers, out1 := turnEach(each[i], addrs[1-i], addrs[i], segments, emits)
				beside, out2 := turnOnce(t, once[i], addrs[1-i], addrs[i], segments, emits, &in, &out)
				if !reflect.DeepEqual(answers, beside) || !reflect.DeepEqual(out1, out2) {
					t.Fatal(seed, step, answers, beside, len(out1), len(out2))
				}
				waiting[i] = nil
				waiting[1-i] = append(waiting[1-i], spoiled(random, out1)...)
				sent, turns = sent+len(out1), turns+1
				for _, it := range answers {
					kinds[it.err]++
					if it.atOnce {
						atOnce++
					}
				}
			}
			if each[i].Status() != once[i].Status() || each[i].Timers() != once[i].Timers() {
				t.Fatal(seed, step, each[i].Status(), once[i].Status())
			}
		}
		for _, end := range append(each, once...) {
			end.Free()
		}
	}
	// The traffic was such that something could differ: taken, dropped, another connection's and broken segments, turns of many segments.
	if kinds[nil] < 500 || kinds[Refused(55)] < 50 || kinds[Refused(3)] < 50 || kinds[Refused(1)] < 10 || atOnce < 100 || sent < 2*turns/3 {
		t.Fatal(kinds, atOnce, sent, turns)
	}
}

// openedByBatches is two ends of such capacities, the first of which has yet to acknowledge the other's SYN: the segment for it is in the
// batch `back`, and the batch `there` is empty.
func openedByBatches(t *testing.T, capacity uint64, shift int8) (one, other *End, there, back *Batch) {
	config := DefaultConfig(a, 7, 1)
	config.SendCapacity, config.RecvCapacity, config.Shift = capacity, capacity, shift
	one, err := New(config)
	if err != nil {
		t.Fatal(err)
	}
	config.Addr = b
	if other, err = New(config); err != nil {
		t.Fatal(err)
	}
	there, back = &Batch{}, &Batch{}
	if other.Listen() != nil || one.Connect(b, 7) != nil || one.EmitAll(there) != nil || other.Turn(a, b, there, back) != nil {
		t.Fatal("not open")
	}
	there.Reset()
	return
}

// An end that has a whole window to send fills a batch far beyond its first memory, which keeps what it has and is written once.
func TestBatchGrows(t *testing.T) {
	one, other, batch, back := openedByBatches(t, 1<<20, 5)
	defer one.Free()
	defer other.Free()
	text, got := make([]byte, 1<<20-1), make([]byte, 1<<20)
	rand.New(rand.NewSource(1)).Read(text)
	if taken, err := one.Send(text); taken != len(text) || err != nil || one.Turn(b, a, back, batch) != nil {
		t.Fatal(taken, err)
	}
	// The window of a SYN isn't scaled (RFC 7323, 2.2): 44 segments of 1,460 bytes and 1,295 bytes are 65,535. Then the rest is due, 673
	// segments and 460 bytes.
	for _, flight := range []struct{ segments, last int }{{45, 1295}, {674, 460}} {
		back.Reset()
		last := flight.segments - 1
		if batch.Len() != flight.segments || len(batch.Segment(0)) != 1480 || len(batch.Segment(last)) != 20+flight.last || batch.To(last) != b {
			t.Fatal(batch.Len(), len(batch.Segment(batch.Len()-1)))
		}
		if err := other.Turn(a, b, batch, back); err != nil || back.Len() != 1 || back.To(0) != a {
			t.Fatal(err, back.Len())
		}
		batch.Reset()
		if err := one.Turn(b, a, back, batch); err != nil {
			t.Fatal(err)
		}
	}
	if count, err := other.Receive(got); count != len(text) || err != nil || !bytes.Equal(got[:count], text) {
		t.Fatal(count, err)
	}
	if batch.Len() != 0 || one.Status().InFlight != 0 {
		t.Fatal(batch.Len(), one.Status())
	}
}

// TestBatchKeepsItsMemory: a turn of segments that go and are acknowledged allocates nothing, nor do the single calls.
func TestBatchKeepsItsMemory(t *testing.T) {
	one, other := connected(t)
	defer one.Free()
	defer other.Free()
	var there, back, small Batch
	var room [EmitRoom]byte
	text, read := make([]byte, 2000), make([]byte, 5000)
	batched := func() {
		there.Reset()
		back.Reset()
		one.Send(text)
		if one.EmitAll(&there) != nil || other.Turn(a, b, &there, &back) != nil || one.ArriveAll(b, a, &back) != nil {
			t.Fatal("a turn is refused")
		}
		if count, err := other.Receive(read); count != len(text) || err != nil || there.Len() != 2 || back.Len() != 1 {
			t.Fatal(count, err, there.Len(), back.Len())
		}
	}
	single := func() {
		one.Send(text[:1000])
		to, length := one.Emit(&room)
		_, there := other.Arrive(a, to, room[:length])
		to, length = other.Emit(&room)
		_, back := one.Arrive(b, to, room[:length])
		if count, err := other.Receive(read); count != 1000 || err != nil || there != nil || back != nil {
			t.Fatal(count, err, there, back)
		}
	}
	texts := func() {
		there.Reset()
		small.Reset()
		small.Add(text[:1])
		small.Add(text[:2])
		_, err := one.ExchangeTexts(b, a, &back, &there, &small, nil)
		back.Reset()
		told, same := other.Exchange(a, b, &there, &back, nil, read)
		if err != nil || same != nil || told.Got != 3 || there.Len() != 2 {
			t.Fatal(err, same, told, there.Len())
		}
	}
	exchanged := func() {
		there.Reset()
		_, err := one.Exchange(b, a, &back, &there, text, nil)
		back.Reset()
		told, same := other.Exchange(a, b, &there, &back, nil, read)
		if err != nil || same != nil || told.Got != len(text) || there.Len() != 2 || back.Len() != 1 {
			t.Fatal(err, same, told, there.Len(), back.Len())
		}
	}
	for name, run := range map[string]func(){"batched": batched, "single": single, "exchanged": exchanged, "texts": texts} {
		if count := testing.AllocsPerRun(100, run); count != 0 {
			t.Error(name, count)
		}
	}
}

func TestBatchRefused(t *testing.T) {
	one, other := connected(t)
	defer other.Free()
	var in, out Batch
	in.Add(nil)
	in.Add([]byte("no segment, though of twenty bytes and more"))
	if err := one.Turn(b, a, &in, &out); err != nil || in.Err(0) != Refused(1) || in.Err(1) != Refused(3) || out.Len() != 0 {
		t.Fatal(err, in.Err(0), in.Err(1), out.Len())
	}
	if err := one.Turn(b, a, &in, &in); !errors.Is(err, Refused(38)) || in.Len() != 2 {
		t.Fatal(err, in.Len())
	}
	one.Free()
	for _, err := range []error{one.ArriveAll(b, a, &in), one.EmitAll(&out), one.Turn(b, a, &in, &out), one.Turn(b, a, &out, &in)} {
		if !errors.Is(err, Refused(31)) || out.Len() != 0 {
			t.Fatal(err, out.Len())
		}
	}
	// Behind the last segment there is none.
	if found := refusal(func() { out.Segment(0) }); found == nil {
		t.Fatal("a segment of an empty batch")
	}
}
