package tcpcore

import "testing"

// Each field of a status, of a connection and of an end: what a transfer of 3,000 bytes, of which 1,460 were read, comes to.
func TestStatus(t *testing.T) {
	both := established(t)
	defer both[0].Free()
	defer both[1].Free()
	both[0].Send(began, make([]byte, 3000))
	segments := emittedBy(both[0], began)
	for _, it := range segments[:2] {
		if _, err := both[1].Arrive(began, a, b, []byte(it.segment)); err != nil {
			t.Fatal(err)
		}
	}
	if n, err := both[1].Receive(began, make([]byte, 1460)); n != 1460 || err != nil {
		t.Fatal(n, err)
	}
	for _, it := range emittedBy(both[1], began) {
		both[0].Arrive(began, b, a, []byte(it.segment))
	}
	sent := Status{Phase: Open, Released: 2920, SndUna: 2921, SndNxt: 3001, RcvNxt: 1, Room: 19920, Queued: 80, InFlight: 80, SndWnd: 18540,
		RcvWnd: 20000, MSS: 1460, Sack: true}
	if status := both[0].Status(); status != sent {
		t.Fatalf("%+v", status)
	}
	got := Status{Phase: Open, Unread: 1460, Ordered: 2920, SndUna: 1, SndNxt: 1, RcvNxt: 2921, Room: 20000, SndWnd: 20000, RcvWnd: 18540,
		MSS: 1460, Sack: true}
	if status := both[1].Status(); status != got {
		t.Fatalf("%+v", status)
	}
	both[0].Close(began)
	for _, it := range append(segments[2:], emittedBy(both[0], began)...) {
		both[1].Arrive(began, a, b, []byte(it.segment))
	}
	if status := both[0].Status(); !status.Closing || status.Finished || status.Phase.String() != "FIN-WAIT-1" {
		t.Fatalf("%+v", status)
	}
	if status := both[1].Status(); status.Closing || !status.Finished || status.Phase.String() != "CLOSE-WAIT" || status.Ending.String() != "not ended" {
		t.Fatalf("%+v", status)
	}
	config := DefaultConfig(a, 1, 1)
	config.Shift, config.Sack = 3, false
	one, _ := New(config)
	config.Addr, config.Shift = b, 2
	other, _ := New(config)
	defer one.Free()
	defer other.Free()
	if other.Listen() != nil || one.Connect(b, 1) != nil || one.Status().Phase.String() != "SYN-SENT" || other.Status().Phase != Listening {
		t.Fatal(one.Status(), other.Status())
	}
	carry(one, a, other)
	carry(other, b, one)
	status := one.Status()
	if !status.Scaled || status.OwnShift != 3 || status.PeerShift != 2 || status.Sack || !Established(status) || Ended(status) {
		t.Fatalf("%+v", status)
	}
	if one.Abort() != nil || !Ended(one.Status()) || one.Status().Ending.String() != "aborted" {
		t.Fatalf("%+v", one.Status())
	}
}
