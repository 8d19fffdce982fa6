package tcpcore

import (
	"testing"
	"time"
)

// RFC 9293, 3.8.6.3 and 3.7.4: an acknowledgement of one segment waits 40 ms, and a second small segment for the first one's acknowledgement.
func TestPolicy(t *testing.T) {
	both := established(t)
	client, server := both[0], both[1]
	for _, end := range both {
		if err := end.SetPolicy(DefaultPolicy()); err != nil {
			t.Fatal(err)
		}
	}
	// How many segments go out, and the first of them.
	emits := func(end *Connection, now time.Time, wanted int) []byte {
		t.Helper()
		sent := emittedBy(end, now)
		if len(sent) != wanted {
			t.Fatal(len(sent))
		}
		if wanted == 0 {
			return nil
		}
		return []byte(sent[0].segment)
	}
	sends := func(wanted int) []byte {
		t.Helper()
		if taken, err := client.Send(began, []byte{1}); taken != 1 || err != nil {
			t.Fatal(taken, err)
		}
		return emits(client, began, wanted)
	}
	first := sends(1)
	sends(0)
	if _, err := server.Arrive(began, a, b, first); err != nil {
		t.Fatal(err)
	}
	emits(server, began, 0)
	late := began.Add(40 * time.Millisecond)
	if at := server.PollAt(); !at.Equal(late) {
		t.Fatal(at)
	}
	if _, err := client.Arrive(late, b, a, emits(server, late, 1)); err != nil {
		t.Fatal(err)
	}
	emits(client, late, 1)
	// Not at all where that is chosen.
	if err := server.SetPolicy(Policy{OverrideTimeout: Never}); err != nil {
		t.Fatal(err)
	}
	if at := server.PollAt(); !at.IsZero() {
		t.Fatal(at)
	}
}
