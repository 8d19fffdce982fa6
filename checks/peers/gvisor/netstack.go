// The other side is gVisor's netstack, for gvisor.c: a static library that C calls. Its clock is the driver's, and each call
// returns once no goroutine has anything left to do.
package main

import "C"

import (
	"bytes"
	"math/rand"
	"runtime"
	"time"
	"unsafe"

	"gvisor.dev/gvisor/pkg/bufferv2"
	"gvisor.dev/gvisor/pkg/tcpip"
	"gvisor.dev/gvisor/pkg/tcpip/faketime"
	"gvisor.dev/gvisor/pkg/tcpip/header"
	"gvisor.dev/gvisor/pkg/tcpip/link/channel"
	"gvisor.dev/gvisor/pkg/tcpip/network/ipv4"
	"gvisor.dev/gvisor/pkg/tcpip/stack"
	"gvisor.dev/gvisor/pkg/tcpip/transport/tcp"
	"gvisor.dev/gvisor/pkg/waiter"
)

const (
	nic      = 1
	own      = tcpip.Address("\x0a\x00\x00\x01")
	peer     = tcpip.Address("\x0a\x00\x00\x02")
	outbound = 4096
	mtu      = 1500
	// With few it sends SYN cookies, and resets what comes before the handshake is answered.
	backlog = 16
	// With one processor all that can run has run after a turn or two.
	turns = 2
)

// What a read answers that has no bytes.
const (
	nothing = 0
	ended   = -1
	failed  = -2
)

var (
	clock    *faketime.ManualClock
	all      *stack.Stack
	link     *channel.Endpoint
	listener tcpip.Endpoint
	user     tcpip.Endpoint
)

// seeded reads the same numbers in each run.
type seeded struct{ *rand.Rand }

func settle() {
	for at := 0; at < turns; at++ {
		runtime.Gosched()
	}
}

func made() tcpip.Endpoint {
	var queue waiter.Queue
	end, fault := all.NewEndpoint(tcp.ProtocolNumber, ipv4.ProtocolNumber, &queue)
	if fault != nil {
		panic(fault.String())
	}
	if fault := end.Bind(tcpip.FullAddress{Addr: peer, Port: 2}); fault != nil {
		panic(fault.String())
	}
	return end
}

func leave() {
	for _, end := range []tcpip.Endpoint{user, listener} {
		if end != nil {
			end.Abort()
		}
	}
	user, listener = nil, nil
	settle()
	clock.Advance(time.Minute)
	settle()
	all.Close()
	link.Close()
	settle()
}

//export netstack_begin
func netstack_begin(opens C.int, blocks C.int, seed C.uint) {
	runtime.GOMAXPROCS(1)
	if all != nil {
		leave()
	}
	clock = faketime.NewManualClock()
	all = stack.New(stack.Options{
		NetworkProtocols:   []stack.NetworkProtocolFactory{ipv4.NewProtocol},
		TransportProtocols: []stack.TransportProtocolFactory{tcp.NewProtocol},
		Clock:              clock,
		SecureRNG:          seeded{rand.New(rand.NewSource(int64(seed)))},
	})
	link = channel.New(outbound, mtu, "")
	if fault := all.CreateNIC(nic, link); fault != nil {
		panic(fault.String())
	}
	address := tcpip.ProtocolAddress{Protocol: ipv4.ProtocolNumber, AddressWithPrefix: peer.WithPrefix()}
	if fault := all.AddProtocolAddress(nic, address, stack.AddressProperties{}); fault != nil {
		panic(fault.String())
	}
	all.SetRouteTable([]tcpip.Route{{Destination: header.IPv4EmptySubnet, NIC: nic}})
	sack := tcpip.TCPSACKEnabled(blocks != 0)
	all.SetTransportProtocolOption(tcp.ProtocolNumber, &sack)
	end := made()
	if opens != 0 {
		user = end
		end.Connect(tcpip.FullAddress{NIC: nic, Addr: own, Port: 1})
	} else {
		listener = end
		end.Listen(backlog)
	}
	settle()
}

//export netstack_advance
func netstack_advance(milliseconds C.ulong) {
	if milliseconds > 0 {
		clock.Advance(time.Duration(milliseconds) * time.Millisecond)
		settle()
	}
}

//export netstack_arrive
func netstack_arrive(packet unsafe.Pointer, length C.int) {
	data := bufferv2.MakeWithData(C.GoBytes(packet, length))
	buffer := stack.NewPacketBuffer(stack.PacketBufferOptions{Payload: data})
	link.InjectInbound(ipv4.ProtocolNumber, buffer)
	buffer.DecRef()
	settle()
}

// netstack_leave copies the next packet that goes out, and answers its length, or 0.
//
//export netstack_leave
func netstack_leave(out unsafe.Pointer, room C.int) C.int {
	packet := link.Read()
	if packet.IsNil() {
		return 0
	}
	length := copy(unsafe.Slice((*byte)(out), int(room)), packet.ToView().AsSlice())
	packet.DecRef()
	return C.int(length)
}

func accepted() bool {
	if user == nil && listener != nil {
		if end, _, fault := listener.Accept(nil); fault == nil {
			user = end
		}
	}
	return user != nil
}

//export netstack_read
func netstack_read(out unsafe.Pointer, room C.int) C.int {
	if !accepted() {
		return nothing
	}
	into := tcpip.SliceWriter(unsafe.Slice((*byte)(out), int(room)))
	result, fault := user.Read(&into, tcpip.ReadOptions{})
	switch fault.(type) {
	case nil:
		settle()
		return C.int(result.Count)
	case *tcpip.ErrWouldBlock, *tcpip.ErrNotConnected:
		return nothing
	case *tcpip.ErrClosedForReceive:
		return ended
	}
	return failed
}

//export netstack_write
func netstack_write(text unsafe.Pointer, length C.int) C.int {
	if !accepted() {
		return nothing
	}
	count, fault := user.Write(bytes.NewReader(C.GoBytes(text, length)), tcpip.WriteOptions{})
	switch fault.(type) {
	case nil:
		settle()
		return C.int(count)
	case *tcpip.ErrWouldBlock:
		return nothing
	}
	return failed
}

//export netstack_shutdown
func netstack_shutdown() {
	user.Shutdown(tcpip.ShutdownWrite)
	settle()
}

//export netstack_abort
func netstack_abort() {
	user.Abort()
	settle()
}

// netstack_is_open says whether the handshake is done.
//
//export netstack_is_open
func netstack_is_open() C.int {
	if !accepted() {
		return 0
	}
	switch tcp.EndpointState(user.State()) {
	case tcp.StateInitial, tcp.StateBound, tcp.StateConnecting, tcp.StateSynSent, tcp.StateSynRecv:
		return 0
	}
	return 1
}

//export netstack_state
func netstack_state() C.int {
	if user == nil {
		return 0
	}
	return C.int(user.State())
}

func main() {}
