package tcpcore

import (
	"testing"
	"time"
)

// RFC 6928, 2: of segments of 1,460 bytes ten go out at first, of 536 before both SYNs have agreed on them (RFC 9293, 3.7.1). RFC 5681, 3.1,
// and RFC 9438, 4.8: after a timeout ssthresh is half of the 5,840 bytes in flight, and 0.7 of them, and the window a segment.
func TestCongestion(t *testing.T) {
	const greatest = 1 << 40
	for kind, ssthresh := range map[uint32]uint64{Reno: 2920, Cubic: 4088} {
		both := opened(t, DefaultRules())
		client := both[0]
		if found := client.Congestion(); found != (Congestion{NoCongestion, greatest, greatest, 0, false}) {
			t.Fatal(found)
		}
		if err := client.SetCongestion(kind); err != nil {
			t.Fatal(err)
		}
		if found := client.Congestion(); found != (Congestion{kind, 5360, greatest, 536, false}) {
			t.Fatal(found)
		}
		if err := client.SetCongestion(3); err != Refused(29) {
			t.Fatal(err)
		}
		handshake(t, both)
		if found := client.Congestion(); found != (Congestion{kind, 14600, greatest, 1460, false}) {
			t.Fatal(found)
		}
		if taken, err := client.Send(began, make([]byte, 4*1460)); taken != 4*1460 || err != nil {
			t.Fatal(taken, err)
		}
		if sent := emittedBy(client, began); len(sent) != 4 {
			t.Fatal(len(sent))
		}
		if err := client.SetCongestion(NoCongestion); err != Refused(54) {
			t.Fatal(err)
		}
		later := began.Add(time.Second)
		if timer, expired := client.Timeout(later); timer != Retransmit || !expired {
			t.Fatal(timer, expired)
		}
		if found := client.Congestion(); found != (Congestion{kind, 1460, ssthresh, 1460, false}) {
			t.Fatal(found)
		}
		if sent := emittedBy(client, later); len(sent) != 1 {
			t.Fatal(len(sent))
		}
		both[0].Free()
		both[1].Free()
	}
}
