package tcpcore

import (
	"testing"
	"time"
)

// RFC 9002, 7.7: with a round trip of 100 ms and a window of 13 segments of 1,460 bytes 379.6 bytes a millisecond go out in slow start: ten
// segments in 38 6/13 ms. Without being asked for all goes out at once. The first window is ten segments (RFC 6928, 2), and one acknowledgement
// of each window adds another (RFC 5681, 3.1).
func TestPacedText(t *testing.T) {
	both := opened(t, DefaultRules())
	client, now := both[0], began
	if err := client.SetCongestion(Cubic); err != nil {
		t.Fatal(err)
	}
	goesOut := func(from, wanted int) {
		t.Helper()
		all := emittedBy(both[from], now)
		if len(all) != wanted {
			t.Fatal(len(all))
		}
		for _, it := range all {
			if _, err := both[1-from].Arrive(now, [2]Addr{a, b}[from], it.to, []byte(it.segment)); err != nil {
				t.Fatal(err)
			}
		}
	}
	gives := func(segments int) {
		t.Helper()
		if taken, err := client.Send(now, make([]byte, segments*1460)); taken != segments*1460 || err != nil {
			t.Fatal(taken, err)
		}
	}
	paces := func(paced bool) {
		t.Helper()
		if err := client.SetPacing(paced); err != nil {
			t.Fatal(err)
		}
	}
	answered := func(segments int) {
		t.Helper()
		if count, err := both[1].Receive(now, make([]byte, 20000)); count != segments*1460 || err != nil {
			t.Fatal(count, err)
		}
		now = now.Add(100 * time.Millisecond)
		goesOut(1, 1)
	}
	goesOut(0, 1)
	now = now.Add(100 * time.Millisecond)
	goesOut(1, 1)
	goesOut(0, 1)
	for _, segments := range []int{10, 11} {
		gives(segments)
		goesOut(0, segments)
		answered(segments)
	}
	paces(true)
	gives(12)
	goesOut(0, 10)
	paces(false)
	goesOut(0, 2)
	answered(12)
	paces(true)
	gives(13)
	goesOut(0, 10)
	next := now.Add(38462 * time.Microsecond)
	now = next.Add(-time.Microsecond)
	goesOut(0, 0)
	if at := client.PollAt(); !at.Equal(next) {
		t.Fatal(at)
	}
	now = next
	if _, expired := client.Timeout(now); expired {
		t.Fatal("a timer has expired")
	}
	goesOut(0, 3)
}
