package tcpcore

import (
	"encoding/binary"
	"testing"
	"time"
)

// RFC 9293, 3.8.4: a silent peer is asked at SND.NXT - 1, and answers; one that doesn't is asked again behind each interval, and given up
// behind the last. Without being asked for no keep-alive is sent.
func TestKeepAlive(t *testing.T) {
	both := established(t)
	client, server := both[0], both[1]
	if at := client.PollAt(); !at.IsZero() {
		t.Fatal(at)
	}
	usual := UsualKeepAlive()
	if err := client.SetKeepAlive(began, &usual); err != nil {
		t.Fatal(err)
	}
	now := began
	// At this time, and not before, the peer is asked; by these bytes.
	asks := func(at time.Time) []byte {
		t.Helper()
		if found := client.PollAt(); !found.Equal(at) {
			t.Fatal(found)
		}
		if sent := emittedBy(client, at.Add(-time.Microsecond)); len(sent) != 0 {
			t.Fatal(len(sent))
		}
		if timer, expired := client.Timeout(at); expired {
			t.Fatal(timer)
		}
		sent := emittedBy(client, at)
		if len(sent) != 1 || len(sent[0].segment) != 20 {
			t.Fatal(len(sent))
		}
		now = at
		return []byte(sent[0].segment)
	}
	asked := asks(began.Add(2 * time.Hour))
	if _, err := server.Arrive(now, a, b, asked); err != ErrDropped {
		t.Fatal(err)
	}
	answers := emittedBy(server, now)
	if len(answers) != 1 || binary.BigEndian.Uint32(asked[4:])+1 != binary.BigEndian.Uint32([]byte(answers[0].segment)[8:]) {
		t.Fatal(len(answers))
	}
	if _, err := client.Arrive(now, b, a, []byte(answers[0].segment)); err != nil {
		t.Fatal(err)
	}
	asks(now.Add(2 * time.Hour))
	for i := 0; i < 8; i++ {
		asks(now.Add(75 * time.Second))
	}
	if timer, expired := client.Timeout(now.Add(75 * time.Second)); !expired || timer != UserTimeout {
		t.Fatal(timer, expired)
	}
	// No time counts as less than a second; and off again.
	if err := server.SetKeepAlive(now, &KeepAlive{}); err != nil {
		t.Fatal(err)
	}
	if at := server.PollAt(); !at.Equal(now.Add(time.Second)) {
		t.Fatal(at)
	}
	if err := server.SetKeepAlive(now, nil); err != nil {
		t.Fatal(err)
	}
	if at := server.PollAt(); !at.IsZero() {
		t.Fatal(at)
	}
}

// By Exchange, turn by turn at the time that each tells: two are asked, and the peer is given up.
func TestKeepAliveByExchange(t *testing.T) {
	client := established(t)[0]
	if err := client.SetKeepAlive(began, &KeepAlive{}); err != nil {
		t.Fatal(err)
	}
	var in, out Batch
	now, count := began, 0
	for turn := 0; turn < 9; turn++ {
		turned, err := client.Exchange(now, b, a, &in, &out, nil, nil)
		if err != nil {
			t.Fatal(err)
		}
		count += out.Len()
		out.Reset()
		if turned.PollAt.IsZero() {
			break
		}
		if turned.PollAt.After(now) {
			now = turned.PollAt
		}
	}
	if status := client.Status(); count != 3 || !now.Equal(began.Add(3*time.Second)) || status.Ending != WasAborted {
		t.Fatal(count, now, status.Ending)
	}
}
