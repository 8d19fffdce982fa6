package tcpcore

import (
	"bytes"
	"io"
	"math/rand"
	"testing"
)

// exchangeEach is ExchangeTexts by single calls.
func exchangeEach(end *End, src, dst Addr, segments []string, texts [][]byte, read []byte) (answers []arrived, out []emitted,
	done Exchanged, refused error) {
	for _, segment := range segments {
		atOnce, err := end.Arrive(src, dst, []byte(segment))
		answers = append(answers, arrived{atOnce, err})
		if atOnce {
			out = append(out, emitEach(end)...)
		}
	}
	if len(read) > 0 {
		done.Got, refused = end.Receive(read)
	}
	if done.Ended = refused == io.EOF; done.Ended {
		refused = nil
	}
	told := refused
	for i, text := range texts {
		var sent int
		sent, refused = end.Send(text)
		if done.Sent += sent; sent < len(text) || i == len(texts)-1 {
			break
		}
		out = append(out, emitOne(end)...)
	}
	if told != nil {
		refused = told
	}
	return answers, append(out, emitEach(end)...), done, refused
}

// exchangeOnce is the same by one call: Exchange where there is one text at most, but for every second time.
func exchangeOnce(end *End, src, dst Addr, in, out *Batch, texts [][]byte, read []byte, isEven bool) (Exchanged, error) {
	if len(texts) == 0 && isEven {
		return end.Exchange(src, dst, in, out, nil, read)
	}
	if len(texts) == 1 && len(texts[0]) > 0 && isEven {
		return end.Exchange(src, dst, in, out, texts[0], read)
	}
	var batch Batch
	for _, text := range texts {
		batch.Add(text)
	}
	return end.ExchangeTexts(src, dst, in, out, &batch, read)
}

// anyTexts is none, one, or some texts, each up to so many bytes.
func anyTexts(random *rand.Rand, text []byte, most int) (texts [][]byte) {
	for count := random.Intn(3) * random.Intn(3); count > 0; count-- {
		texts = append(texts, text[:random.Intn(most)])
	}
	return
}

// So it is with whole turns, until both users have read the end of the stream, and behind it, where all is refused.
func TestExchangeIsTheCalls(t *testing.T) {
	moved, ended, refused := 0, 0, 0
	for seed := int64(0); seed < 20; seed++ {
		random := rand.New(rand.NewSource(seed))
		one, other := connected(t)
		third, fourth := connected(t)
		each, once, addrs := []*End{one, other}, []*End{third, fourth}, []Addr{a, b}
		var in, out Batch
		waiting, text, read := [2][]string{}, make([]byte, 5000), [2][]byte{make([]byte, 5000), make([]byte, 5000)}
		random.Read(text)
		for step := 0; step < 600; step++ {
			i := random.Intn(2)
			if step > 400 && random.Intn(20) == 0 && each[i].Close() != once[i].Close() {
				t.Fatal(seed, step)
			}
			if timer := uint32(random.Intn(8)); timer < 2 && each[i].Timer(timer) != once[i].Timer(timer) {
				t.Fatal(seed, step, timer)
			}
			texts, segments := anyTexts(random, text, []int{2, 100, 2500}[random.Intn(3)]), waiting[i]
			reads := random.Intn(2) * random.Intn(5000)
			if step > 400 {
				reads = 5000
			}
			answers, out1, done1, err1 := exchangeEach(each[i], addrs[1-i], addrs[i], segments, texts, read[0][:reads])
			in.Reset()
			out.Reset()
			for _, segment := range segments {
				in.Add([]byte(segment))
			}
			done2, err2 := exchangeOnce(once[i], addrs[1-i], addrs[i], &in, &out, texts, read[1][:reads], step%2 == 0)
			if done1 != done2 || err1 != err2 || !bytes.Equal(read[0][:done1.Got], read[1][:done1.Got]) || out.Len() != len(out1) {
				t.Fatal(seed, step, done1, done2, err1, err2, len(out1), out.Len())
			}
			for k, it := range answers {
				if it != (arrived{in.AtOnce(k), in.Err(k)}) {
					t.Fatal(seed, step, k, it)
				}
			}
			for k, it := range out1 {
				if it != (emitted{out.To(k), string(out.Segment(k))}) {
					t.Fatal(seed, step, k)
				}
			}
			waiting[i] = nil
			waiting[1-i] = append(waiting[1-i], spoiled(random, out1)...)
			if moved += done1.Got; done1.Ended {
				ended++
			}
			if err1 != nil {
				refused++
			}
			if each[i].Status() != once[i].Status() || each[i].Timers() != once[i].Timers() {
				t.Fatal(seed, step, each[i].Status(), once[i].Status())
			}
		}
		for _, end := range append(each, once...) {
			end.Free()
		}
	}
	// Text, ends of streams and refused calls were among them.
	if moved < 1000000 || ended < 20 || refused < 100 {
		t.Fatal(moved, ended, refused)
	}
}

// A turn whose batch fills up goes on where it stopped: a whole window of text goes out of one Exchange, and is read by another.
func TestExchangeGrows(t *testing.T) {
	one, other, there, back := openedByBatches(t, 65535, -1)
	defer one.Free()
	defer other.Free()
	text, got := make([]byte, 65535), make([]byte, 65535)
	rand.New(rand.NewSource(2)).Read(text)
	told, err := one.Exchange(b, a, back, there, text, nil)
	// The acknowledgement of the SYN,ACK goes out at once, and then 44 segments of 1,460 bytes and one of 1,295.
	if told != (Exchanged{Sent: len(text)}) || err != nil || there.Len() != 46 || len(there.Segment(45)) != 20+1295 {
		t.Fatal(told, err, there.Len())
	}
	back.Reset()
	told, err = other.Exchange(a, b, there, back, nil, got)
	if told != (Exchanged{Got: len(text)}) || err != nil || back.Len() != 1 || !bytes.Equal(text, got) {
		t.Fatal(told, err, back.Len())
	}
	if _, err = one.Exchange(b, a, back, back, nil, nil); err != Refused(38) {
		t.Fatal(err)
	}
	if _, err = one.ExchangeTexts(b, a, back, there, there, nil); err != Refused(38) {
		t.Fatal(err)
	}
	one.Free()
	if _, err = one.Exchange(b, a, back, there, text, got); err != Refused(31) {
		t.Fatal(err)
	}
}

// Small writes in one call: each is a segment of its own while there is room in the window, and none goes behind one that isn't taken whole.
func TestExchangeTexts(t *testing.T) {
	one, other := connected(t)
	defer one.Free()
	defer other.Free()
	var there, back, texts Batch
	for _, text := range []string{"a", "bc", "", "def"} {
		texts.Add([]byte(text))
	}
	told, err := one.ExchangeTexts(b, a, &back, &there, &texts, nil)
	if told != (Exchanged{Sent: 6}) || err != nil || there.Len() != 3 {
		t.Fatal(told, err, there.Len())
	}
	for i, text := range []string{"a", "bc", "def"} {
		if string(there.Segment(i)[20:]) != text {
			t.Fatal(i, there.Segment(i))
		}
	}
	read := make([]byte, 10)
	told, err = other.ExchangeTexts(a, b, &there, &back, &Batch{}, read)
	if told.Got != 6 || err != nil || back.Len() != 1 || string(read[:6]) != "abcdef" {
		t.Fatal(told, err, back.Len(), read)
	}
	// A batch that fills up in the midst of the texts goes on behind it.
	for there, texts = (Batch{}), (Batch{}); texts.Len() < 40; {
		texts.Add(make([]byte, 100))
	}
	told, err = one.ExchangeTexts(b, a, &back, &there, &texts, nil)
	if told.Sent != 4000 || err != nil || there.Len() != 40 || len(there.Segment(39)) != 120 {
		t.Fatal(told, err, there.Len())
	}
	back.Reset()
	if err := other.Turn(a, b, &there, &back); err != nil {
		t.Fatal(err)
	}
	texts, there = Batch{}, Batch{}
	texts.Add(make([]byte, 100000))
	texts.Add([]byte("behind it"))
	capacity := one.Status().Room + one.Status().Queued
	if told, err = one.ExchangeTexts(b, a, &back, &there, &texts, nil); uint64(told.Sent) != capacity || err != nil {
		t.Fatal(told, err, capacity)
	}
}
