package tcpcore

import (
	"bytes"
	"io"
	"math/rand"
	"reflect"
	"testing"
	"time"
)

// onTheWay is a segment that comes to a side at a time.
type onTheWay struct {
	at      time.Time
	side    int
	segment string
}

// link delays each segment by 20 ms, and by up to `jitter` more, and loses some of a hundred; `expired` has the timers of both sides.
type link struct {
	random       *rand.Rand
	jitter, loss int
	way          []onTheWay
	now          time.Time
	expired      []uint32
}

func (it *link) put(side int, out []emitted) {
	for _, sent := range out {
		more := time.Duration(it.random.Intn(it.jitter+1)) * time.Millisecond
		if it.random.Intn(100) >= it.loss {
			it.way = append(it.way, onTheWay{it.now.Add(20*time.Millisecond + more), 1 - side, sent.segment})
		}
	}
}

// come is what has come to a side by now.
func (it *link) come(side int) (segments []string) {
	left := []onTheWay{}
	for _, its := range it.way {
		if its.side == side && !its.at.After(it.now) {
			segments = append(segments, its.segment)
		} else {
			left = append(left, its)
		}
	}
	it.way = left
	return
}

// goesOn lets time go on to the next arrival or deadline, unless there is none.
func (it *link) goesOn(deadlines [2]time.Time) bool {
	next, times := time.Time{}, deadlines[:]
	for _, its := range it.way {
		times = append(times, its.at)
	}
	for _, at := range times {
		if !at.IsZero() && (next.IsZero() || at.Before(next)) {
			next = at
		}
	}
	if next.After(it.now) {
		it.now = next
	}
	return !next.IsZero()
}

// user sends its text, closes, and reads.
type user struct {
	text, got []byte
	closing   bool
}

// turnSingly is ExchangeTexts by single calls, as its comment says.
func turnSingly(it *Connection, now time.Time, src, dst Addr, segments []string, texts [][]byte,
	read []byte) (answers []arrived, out []emitted, turned Turned, refused error) {
	for i := 0; i < len(segments); {
		report, err := it.Arrive(now, src, dst, []byte(segments[i]))
		if err == ErrEmitFirst || report.AtOnce {
			out = append(out, emittedBy(it, now)...)
		}
		if err != ErrEmitFirst {
			answers, i = append(answers, arrived{report.AtOnce, err}), i+1
		}
	}
	if len(read) > 0 {
		turned.Got, refused = it.Receive(now, read)
	}
	if turned.Ended = refused == io.EOF; turned.Ended {
		refused = nil
	}
	told := refused
	for i, text := range texts {
		var sent int
		sent, refused = it.Send(now, text)
		if turned.Sent += sent; sent < len(text) || i == len(texts)-1 {
			break
		}
		var room [EmitRoom]byte
		if told := it.Emit(now, &room); told.Length > 0 {
			out = append(out, emitted{told.To, string(room[:told.Length])})
		}
	}
	if told != nil {
		refused = told
	}
	out = append(out, emittedBy(it, now)...)
	for {
		timer, expired := it.Timeout(now)
		if !expired {
			break
		}
		turned.Expired |= 1 << timer
		out = append(out, emittedBy(it, now)...)
	}
	turned.PollAt, turned.Closed = it.PollAt(), it.Status().Phase == Closed
	return
}

// turnAtOnce is Exchange of one text, and ExchangeTexts of more, with what it was given and gave as turnSingly has it.
func turnAtOnce(it *Connection, now time.Time, src, dst Addr, segments []string, texts [][]byte, read []byte,
	in, out *Batch) (answers []arrived, sent []emitted, turned Turned, refused error) {
	in.Reset()
	out.Reset()
	for _, segment := range segments {
		in.Add([]byte(segment))
	}
	switch len(texts) {
	case 0:
		turned, refused = it.Exchange(now, src, dst, in, out, nil, read)
	case 1:
		turned, refused = it.Exchange(now, src, dst, in, out, texts[0], read)
	default:
		var batch Batch
		for _, text := range texts {
			batch.Add(text)
		}
		turned, refused = it.ExchangeTexts(now, src, dst, in, out, &batch, read)
	}
	for i := 0; i < in.Len(); i++ {
		answers = append(answers, arrived{in.AtOnce(i), in.Err(i)})
	}
	for i := 0; i < out.Len(); i++ {
		sent = append(sent, emitted{out.To(i), string(out.Segment(i))})
	}
	return
}

// pieces is a text in one piece, and of side 1 in pieces of 700 bytes.
func pieces(text []byte, side int) (texts [][]byte) {
	for side == 1 && len(text) > 700 {
		texts, text = append(texts, text[:700]), text[700:]
	}
	if len(text) > 0 {
		texts = append(texts, text)
	}
	return
}

// carries carries a text each way, to the end of both connections: each turn is made by single calls of one pair, and by Exchange of
// another, which is the same.
func carries(t *testing.T, seed int64, jitter, loss int, rules Rules) *link {
	both, beside := opened(t, rules), opened(t, rules)
	wire := &link{random: rand.New(rand.NewSource(seed)), jitter: jitter, loss: loss, now: began}
	users, deadlines, read := [2]user{}, [2]time.Time{}, [2][]byte{make([]byte, 20000), make([]byte, 20000)}
	texts := [2][]byte{make([]byte, 125000), make([]byte, 125000)}
	for side := range users {
		defer both[side].Free()
		defer beside[side].Free()
		wire.random.Read(texts[side])
		users[side].text = texts[side]
	}
	var in, out Batch
	for first := true; first || wire.goesOn(deadlines); first = false {
		for side := range both {
			segments := wire.come(side)
			for again := true; again; segments = nil {
				it, user := both[side], &users[side]
				text := user.text
				if it.Status().Phase < Open && side == 1 {
					text = nil
				}
				texts, src, dst := pieces(text, side), addrs[1-side], addrs[side]
				answers, sent, turned, err := turnSingly(it, wire.now, src, dst, segments, texts, read[0])
				answers2, sent2, turned2, err2 := turnAtOnce(beside[side], wire.now, src, dst, segments, texts, read[1], &in, &out)
				if !reflect.DeepEqual(answers, answers2) || !reflect.DeepEqual(sent, sent2) || turned != turned2 || err != err2 {
					t.Fatal(seed, wire.now, side, turned, turned2, err, err2, len(sent), len(sent2), answers, answers2)
				}
				if !bytes.Equal(read[0][:turned.Got], read[1][:turned.Got]) || it.Status() != beside[side].Status() {
					t.Fatal(seed, wire.now, side)
				}
				if err != nil && err != ErrEnded && err != ErrClosing {
					t.Fatal(seed, err)
				}
				wire.put(side, sent)
				user.text, user.got = user.text[turned.Sent:], append(user.got, read[0][:turned.Got]...)
				for timer := uint32(0); timer < 4; timer++ {
					if turned.Expired>>timer&1 == 1 {
						wire.expired = append(wire.expired, timer)
					}
				}
				again = turned.Got > 0
				if !user.closing && len(user.text) == 0 && it.Status().Phase >= Open {
					user.closing, again = true, true
					if it.Close(wire.now) != nil || beside[side].Close(wire.now) != nil {
						t.Fatal(seed, "not closed")
					}
				}
				deadlines[side] = turned.PollAt
			}
		}
	}
	for side := range both {
		if status := both[side].Status(); status.Phase != Closed || status.Ending != Orderly || !bytes.Equal(users[side].got, texts[1-side]) {
			t.Fatal(seed, side, status, len(users[side].got))
		}
	}
	return wire
}
