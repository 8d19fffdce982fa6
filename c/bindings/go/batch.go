package tcpcore

/*
#include "batch.h"
*/
import "C"

import "unsafe"

// Batch is segments in their order: those that arrive, or those that were emitted. The zero Batch is empty and ready for use. It grows as
// it has to and keeps its memory over Reset, so that a batch used again and again allocates nothing. It is used by one goroutine at a
// time, and not copied.
type Batch struct {
	bytes   []byte
	records []C.struct_batch_record
	taken   C.struct_batch_taken // of both; C counts what it emits
}

// Reset empties the batch. What Segment lent is written over by what comes next.
func (batch *Batch) Reset() { batch.taken.used, batch.taken.count = 0, 0 }

// Len is the number of segments.
func (batch *Batch) Len() int { return int(batch.taken.count) }

// Add appends a copy of a segment.
func (batch *Batch) Add(segment []byte) {
	if !batch.has(len(segment)) {
		batch.grow(len(segment))
	}
	taken := &batch.taken
	copy(batch.bytes[taken.used:], segment)
	batch.records[taken.count] = C.struct_batch_record{at: taken.used, length: C.size_t(len(segment))}
	taken.used, taken.count = taken.used+C.size_t(len(segment)), taken.count+1
}

// has is whether there is room for a record and so many bytes.
func (batch *Batch) has(more int) bool {
	taken := &batch.taken
	return taken.count < taken.most && taken.room-taken.used >= C.size_t(more)
}

// grow makes that room.
func (batch *Batch) grow(more int) {
	taken := &batch.taken
	if taken.room-taken.used < C.size_t(more) || taken.room == 0 {
		bytes := make([]byte, 2*len(batch.bytes)+more+8*EmitRoom)
		copy(bytes, batch.bytes[:taken.used])
		batch.bytes, taken.room = bytes, C.size_t(len(bytes))
	}
	if taken.count == taken.most {
		records := make([]C.struct_batch_record, 2*len(batch.records)+16)
		copy(records, batch.records)
		batch.records, taken.most = records, C.size_t(len(records))
	}
}

// first is the first record, also of an empty batch.
func (batch *Batch) first() *C.struct_batch_record {
	if len(batch.records) == 0 {
		batch.grow(0)
	}
	return &batch.records[0]
}

func (batch *Batch) record(i int) *C.struct_batch_record {
	return &batch.records[:batch.taken.count][i]
}

// Segment lends segment i, until the next Reset, Add, or call that fills the batch.
func (batch *Batch) Segment(i int) []byte {
	record := batch.record(i)
	return batch.bytes[record.at : record.at+record.length : record.at+record.length]
}

// To is where segment i goes, of those that were emitted.
func (batch *Batch) To(i int) Addr { return *(*Addr)(unsafe.Pointer(&batch.record(i).to)) }

// Err is what Arrive would have told of segment i, once it has arrived: nil where it was taken.
func (batch *Batch) Err(i int) error { return done(batch.record(i).answer) }

// AtOnce is whether segment i had to be answered at once, once it has arrived.
func (batch *Batch) AtOnce(i int) bool { return batch.record(i).at_once == 1 }

// ArriveAll is Arrive for each segment in order, in one call of C; Err and AtOnce tell of each. It returns an error where there is no end,
// as after Free: then no segment was handed in.
//
// All are handed in, whatever the answers are. So one that has to be answered at once is answered behind the last one: an end that lets
// acknowledgements wait for a second segment uses Turn, or looks at AtOnce.
func (end *End) ArriveAll(src, dst Addr, in *Batch) error {
	return end.turn(src, dst, in, nil, false)
}

// EmitAll is Emit until nothing is due, in one call of C. What it writes is appended to the batch. It returns an error where there is no
// end, as after Free.
func (end *End) EmitAll(out *Batch) error {
	return end.turn(Addr{}, Addr{}, nil, out, true)
}

// Turn is, in one call of C, Arrive for each segment in order, with Emit until nothing is due behind each one that has to be answered at
// once (RFC 5681, 4.2), and behind the last one. What it emits is appended to `out`, another Batch than `in`; where `in` is empty it is
// EmitAll. It returns an error where there is no end, as after Free.
func (end *End) Turn(src, dst Addr, in, out *Batch) error {
	if in == out {
		return Refused(C.TCPCORE_OVERLAP)
	}
	return end.turn(src, dst, in, out, in.Len() == 0)
}

// Exchanged is what the user's calls within an Exchange did: how many bytes of the text were accepted, as Send tells, and how many were
// read, as Receive does; Ended at the end of the stream, where Receive returns io.EOF.
type Exchanged struct {
	Sent, Got int
	Ended     bool
}

// exchanged is what the user's calls did by what C has told, and what they were refused with.
func exchanged(sent, got *C.struct_batch_count) (Exchanged, error) {
	did := Exchanged{int(sent.count), int(got.count), got.answer == C.TCPCORE_END_OF_STREAM}
	if got.answer != C.TCPCORE_DONE && got.answer < C.TCPCORE_NOTHING {
		return did, Refused(got.answer)
	}
	return did, done(sent.answer)
}

// Exchange is a whole turn of an end in one call of C: Arrive for each segment of `in`, with Emit until nothing is due behind each one that
// has to be answered at once (RFC 5681, 4.2); then Receive into `read` and Send of `text`, each only where it isn't empty; and then Emit
// until nothing is due, so that the acknowledgement tells of the window behind the read, and goes out with the text. What is emitted is
// appended to `out`, another Batch than `in`. The error is the first of: that there is no end, as after Free, then nothing was done; what
// Receive tells; and what Send tells.
func (end *End) Exchange(src, dst Addr, in, out *Batch, text, read []byte) (Exchanged, error) {
	return end.exchange(src, dst, in, out, text, nil, C.size_t(len(text)), read)
}

// ExchangeTexts is Exchange for many small writes: each of `texts`, another Batch than `out`, is a Send with an Emit behind it, and behind
// the last one all that is due goes out. So each has a segment of its own where nothing else was due and the peer's window has room for
// it. Behind one that isn't taken whole none is sent: Sent tells how many bytes were.
func (end *End) ExchangeTexts(src, dst Addr, in, out, texts *Batch, read []byte) (Exchanged, error) {
	if texts == out {
		return Exchanged{}, Refused(C.TCPCORE_OVERLAP)
	}
	return end.exchange(src, dst, in, out, texts.bytes, texts.first(), texts.taken.count, read)
}

// exchange sends so many texts, which lie where their records say; without records one of so many bytes.
func (end *End) exchange(src, dst Addr, in, out *Batch, text []byte, records *C.struct_batch_record, count C.size_t,
	read []byte) (Exchanged, error) {
	if in == out {
		return Exchanged{}, Refused(C.TCPCORE_OVERLAP)
	}
	told := &end.told
	*told = C.struct_batch_told{}
	for {
		if !out.has(EmitRoom) {
			out.grow(EmitRoom)
		}
		C.batch_exchange(end.raw, src.c(), dst.c(), bytesOf(in.bytes), recordsOf(in.records), in.taken.count,
			bytesOf(text), records, count, bytesOf(read), C.size_t(len(read)),
			bytesOf(out.bytes), recordsOf(out.records), &out.taken, told)
		if told.emit_first == 0 {
			break
		}
	}
	did, refused := exchanged(&told.sent, &told.got)
	if told.answer != C.TCPCORE_DONE {
		refused = Refused(told.answer)
	}
	return did, refused
}

var none Batch

// turn calls C, and again where `out` has to grow before more can be emitted. Where `emits` it emits before anything arrives.
func (end *End) turn(src, dst Addr, in, out *Batch, emits bool) error {
	from, to := in, out
	if in == nil {
		from = &none
	}
	if out == nil {
		to = &none
	}
	told := &end.told
	*told = C.struct_batch_told{emit_first: is(emits)}
	for {
		if out != nil {
			if !out.has(EmitRoom) {
				out.grow(EmitRoom)
			}
		}
		C.batch_turn(end.raw, src.c(), dst.c(), bytesOf(from.bytes), recordsOf(from.records), from.taken.count, is(out != nil),
			bytesOf(to.bytes), recordsOf(to.records), &to.taken, told)
		if told.emit_first == 0 {
			return done(told.answer)
		}
	}
}

func is(so bool) C.uint32_t {
	if so {
		return 1
	}
	return 0
}

// bytesOf and recordsOf are where a slice begins, nil where it is empty; of types without pointers, in which cgo has nothing to look for.
func bytesOf(bytes []byte) *C.uchar { return (*C.uchar)(front(bytes)) }

func recordsOf(records []C.struct_batch_record) *C.struct_batch_record {
	if len(records) == 0 {
		return nil
	}
	return &records[0]
}
