package tcpcore_test

import (
	"bytes"
	"fmt"
	"net"
	"tcpcore"
	"time"
)

// side is one side's address, as its connection knows it, and its socket.
type side struct {
	addr   tcpcore.Addr
	socket net.PacketConn
}

// run carries a connection from one side to the other to its end: it sends the text and closes, and tells what came. The way loses each
// tenth datagram.
func run(connection *tcpcore.Connection, own, peer side, text []byte) (got []byte, err error) {
	defer connection.Free()
	var in, out tcpcore.Batch
	buffer, count, closed := make([]byte, 65535), 0, false
	for {
		turned, err := connection.Exchange(time.Now(), peer.addr, own.addr, &in, &out, text, buffer)
		if err != nil {
			return nil, err
		}
		text, got = text[turned.Sent:], append(got, buffer[:turned.Got]...)
		in.Reset()
		if !closed && len(text) == 0 && (turned.Ended || tcpcore.Established(connection.Status())) {
			closed = connection.Close(time.Now()) == nil
			continue
		}
		for i := 0; i < out.Len(); i++ {
			if count++; count%10 != 0 {
				own.socket.WriteTo(out.Segment(i), peer.socket.LocalAddr()) // what the socket refuses is lost, too
			}
		}
		out.Reset()
		if turned.Closed {
			return got, nil
		}
		own.socket.SetReadDeadline(turned.PollAt)
		if length, _, err := own.socket.ReadFrom(buffer); err == nil {
			in.Add(buffer[:length])
		}
	}
}

// A client sends a text to a server over UDP sockets of the loopback, a segment in each datagram: IPv4's protocol 6 would need root.
func ExampleConnection() {
	here, there := side{addr: tcpcore.Addr{127, 0, 0, 1}}, side{addr: tcpcore.Addr{127, 0, 0, 2}}
	for _, it := range []*side{&here, &there} {
		socket, err := net.ListenPacket("udp", "127.0.0.1:0")
		if err != nil {
			panic(err)
		}
		defer socket.Close()
		it.socket = socket
	}
	// On the loopback segments live for a short time.
	rules := tcpcore.DefaultRules()
	rules.Least, rules.TimeWait = 50*time.Millisecond, 500*time.Millisecond
	server, err := tcpcore.Listen(tcpcore.DefaultConfig(there.addr, 7, 5000), rules, time.Now())
	if err != nil {
		panic(err)
	}
	client, err := tcpcore.Connect(tcpcore.DefaultConfig(here.addr, 7, 1000), rules, there.addr, 7, time.Now())
	if err != nil {
		panic(err)
	}
	served, text := make(chan []byte), bytes.Repeat([]byte("0123456789"), 20000)
	go func() {
		got, _ := run(server, there, here, nil)
		served <- got
	}()
	_, err = run(client, here, there, text)
	fmt.Println(err, bytes.Equal(<-served, text))
	// Output: <nil> true
}
