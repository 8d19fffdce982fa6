// handed MODE COUNT in Go: COUNT bursts of in_order, one_byte or sixteen, as bench/handed.c moves them in C; in_turns, bytes_in_turns and
// sixteen_in_turns are the same bursts by batches.
package main

// #include <stdlib.h>
import "C"

import (
	"os"
	"strconv"
	"strings"
	"tcpcore"
)

const capacity = 65536

var a, b = tcpcore.Addr{10, 0, 0, 1}, tcpcore.Addr{10, 0, 0, 2}

func must(err error) {
	if err != nil {
		panic(err)
	}
}

func made(addr tcpcore.Addr, port uint16) *tcpcore.End {
	config := tcpcore.DefaultConfig(addr, port, 1000)
	config.SendCapacity, config.RecvCapacity, config.Shift = capacity, capacity, 5
	end, err := tcpcore.New(config)
	must(err)
	return end
}

var room [tcpcore.EmitRoom]byte

func carry(from *tcpcore.End, src tcpcore.Addr, to *tcpcore.End) {
	if dst, length := from.Emit(&room); length > 0 {
		to.Arrive(src, dst, room[:length])
	}
}

func burst(one, other *tcpcore.End, text, read []byte, segments int) int {
	if len(text) > segments {
		one.Send(text)
	}
	for k := 0; k < segments; k++ {
		if len(text) == segments {
			one.Send(text[:1])
		}
		carry(one, a, other)
	}
	carry(other, b, one)
	count, err := other.Receive(read)
	must(err)
	return count
}

var there, back, texts tcpcore.Batch

// What answered the burst before arrives with the turn that sends the next one, as in a program's loop. Segments of one byte are small
// writes, which lie in a batch as `text` lies in its slice.
func turn(one, other *tcpcore.End, text, read []byte, segments int) int {
	var err error
	there.Reset()
	if texts.Len() > 0 {
		_, err = one.ExchangeTexts(b, a, &back, &there, &texts, nil)
	} else {
		_, err = one.Exchange(b, a, &back, &there, text, nil)
	}
	must(err)
	back.Reset()
	exchanged, err := other.Exchange(a, b, &there, &back, nil, read)
	must(err)
	return exchanged.Got
}

func main() {
	mode, segments, each, move := os.Args[1], 2, 1460, burst
	if strings.HasPrefix(mode, "sixteen") {
		segments = 16
	}
	if mode == "one_byte" || mode == "bytes_in_turns" {
		each = 1
	}
	if strings.HasSuffix(mode, "in_turns") {
		move = turn
	}
	text := make([]byte, segments*each)
	for mode == "bytes_in_turns" && texts.Len() < segments {
		texts.Add(text[:1])
	}
	count, err := strconv.Atoi(os.Args[2])
	must(err)
	one, other := made(a, 1), made(b, 2)
	must(other.Listen())
	must(one.Connect(b, 2))
	carry(one, a, other)
	carry(other, b, one)
	carry(one, a, other)
	read := make([]byte, len(text))
	left := count * len(text)
	for k := 0; k < count; k++ {
		left -= move(one, other, text, read, segments)
	}
	// Not os.Exit, behind which what is preloaded tells nothing.
	if left != 0 {
		C.exit(1)
	}
	C.exit(0)
}
