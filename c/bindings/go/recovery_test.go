package tcpcore

import (
	"testing"
	"time"
)

// RFC 8985, 7.2: with a round trip of 100 ms the end of what was sent goes out again behind two of them, and the peer's delay of 200 ms behind a
// single segment; no timer expires.
func TestRecovery(t *testing.T) {
	both := opened(t, DefaultRules())
	client, server := both[0], both[1]
	if err := client.SetRecovery(began); err != nil {
		t.Fatal(err)
	}
	if err := client.SetRecovery(began); err != ErrInUse {
		t.Fatal(err)
	}
	// One segment of a side goes to the other.
	carry := func(from, to *Connection, src, dst Addr, now time.Time) {
		t.Helper()
		sent := emittedBy(from, now)
		if len(sent) != 1 {
			t.Fatal(len(sent))
		}
		if _, err := to.Arrive(now, src, dst, []byte(sent[0].segment)); err != nil {
			t.Fatal(err)
		}
	}
	now := began.Add(100 * time.Millisecond)
	carry(client, server, a, b, began)
	carry(server, client, b, a, now)
	carry(client, server, a, b, now)
	if taken, err := client.Send(now, []byte{1}); taken != 1 || err != nil {
		t.Fatal(taken, err)
	}
	probed := now.Add(400 * time.Millisecond)
	if sent, at := emittedBy(client, now), client.PollAt(); len(sent) != 1 || !at.Equal(probed) {
		t.Fatal(len(sent), at)
	}
	if sent := emittedBy(client, probed.Add(-time.Microsecond)); len(sent) != 0 {
		t.Fatal(len(sent))
	}
	if sent := emittedBy(client, probed); len(sent) != 1 {
		t.Fatal(len(sent))
	}
	if timer, expired := client.Timeout(probed); expired || !client.PollAt().After(probed) {
		t.Fatal(timer, client.PollAt())
	}
	if taken, err := server.Send(now, []byte{1}); taken != 1 || err != nil || len(emittedBy(server, now)) != 1 {
		t.Fatal(taken, err)
	}
	if err := server.SetRecovery(now); err != ErrBegun {
		t.Fatal(err)
	}
	client.Free()
	if err := client.SetRecovery(now); err != ErrNoEnd {
		t.Fatal(err)
	}
}
