package tcpcore

import "testing"

// Of two pairs of connections one's segments go out as one, for a device that cuts them and sums: the same text, and the same states and
// times. Segments have 1,460 bytes of text: four end within a window of 7,299.
func TestConnectionTrain(t *testing.T) {
	one, other := established(t), established(t)
	text := make([]byte, 8000)
	for i := range text {
		text[i] = byte(i * 7)
	}
	for _, both := range [][2]*Connection{one, other} {
		defer both[0].Free()
		defer both[1].Free()
		both[0].Window = 7299
		if taken, err := both[0].Send(began, text); taken != len(text) || err != nil {
			t.Fatal(taken, err)
		}
	}
	room := make([]byte, TrainRoom)
	if told, err := other[0].EmitTrain(began, room[:EmitRoom-1], 64); told != (Train{}) || err != Refused(33) {
		t.Fatal(told, err)
	}
	told, err := other[0].EmitTrain(began, room, 64)
	whole := Transmit{To: b, Kind: NewText, Length: 5860, Count: 5840, Position: 1}
	if told != (Train{whole, 20, 1460, 4}) || err != nil || string(room[20:5860]) != string(text[:5840]) {
		t.Fatal(told, err)
	}
	for i, it := range emittedBy(one[0], began) {
		if i > 3 || it.segment[20:] != string(text[1460*i:1460*(i+1)]) {
			t.Fatal(i, len(it.segment))
		}
	}
	if told, err := other[0].EmitTrain(began, room, 64); told != (Train{}) || err != nil {
		t.Fatal(told, err)
	}
	if one[0].Status() != other[0].Status() || !one[0].PollAt().Equal(other[0].PollAt()) {
		t.Fatal(one[0].Status(), other[0].Status())
	}
	if report, err := other[1].ArriveVouched(began, a, b, room[:5860]); report.Brought != InOrder || err != nil {
		t.Fatal(report, err)
	}
	// A count below 0 is 1: the acknowledgement, for a device that sums.
	whole = Transmit{To: a, Kind: Acknowledgement, Length: 20, Position: 1}
	if told, err := other[1].EmitTrain(began, room, -1); told != (Train{whole, 20, 0, 1}) || err != nil {
		t.Fatal(told, err)
	}
}
