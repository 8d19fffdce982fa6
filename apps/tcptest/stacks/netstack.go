// gVisor's netstack for gvisor.c: a static library that C calls. Its clock is the tester's, and each call returns once no goroutine has
// anything left to do.
package main

import "C"

import (
	"bytes"
	"runtime"
	"time"
	"unsafe"

	"gvisor.dev/gvisor/pkg/bufferv2"
	"gvisor.dev/gvisor/pkg/tcpip"
	"gvisor.dev/gvisor/pkg/tcpip/faketime"
	"gvisor.dev/gvisor/pkg/tcpip/header"
	"gvisor.dev/gvisor/pkg/tcpip/link/channel"
	"gvisor.dev/gvisor/pkg/tcpip/network/ipv4"
	"gvisor.dev/gvisor/pkg/tcpip/stack"
	"gvisor.dev/gvisor/pkg/tcpip/transport/icmp"
	"gvisor.dev/gvisor/pkg/tcpip/transport/tcp"
	"gvisor.dev/gvisor/pkg/waiter"
)

const (
	nic      = 1
	own      = tcpip.Address("\x0a\x09\x00\x01")
	outbound = 4096
	mtu      = 1500
	backlog  = 16
	// With one processor all that can run has run after a turn or two.
	turns = 3
)

// What a read or a write answers that has no bytes (child.h).
const (
	nothing  = -1
	ended    = -2
	reset    = -3
	timedOut = -4
)

var (
	clock     *faketime.ManualClock
	all       *stack.Stack
	link      *channel.Endpoint
	listeners = map[uint16]tcpip.Endpoint{}
	users     []tcpip.Endpoint
)

func settle() {
	for at := 0; at < turns; at++ {
		runtime.Gosched()
	}
}

func wish(end tcpip.Endpoint, capacity, nagle, ttl, service C.int) {
	if capacity > 0 {
		end.SocketOptions().SetReceiveBufferSize(int64(capacity), true)
	}
	end.SocketOptions().SetDelayOption(nagle > 0)
	if ttl >= 0 {
		end.SetSockOptInt(tcpip.IPv4TTLOption, int(ttl))
	}
	if service >= 0 {
		end.SetSockOptInt(tcpip.IPv4TOSOption, int(service))
	}
}

func made(port C.ushort) tcpip.Endpoint {
	var queue waiter.Queue
	end, fault := all.NewEndpoint(tcp.ProtocolNumber, ipv4.ProtocolNumber, &queue)
	if fault != nil {
		panic(fault.String())
	}
	if fault := end.Bind(tcpip.FullAddress{Addr: own, Port: uint16(port)}); fault != nil {
		panic(fault.String())
	}
	return end
}

//export netstack_begin
func netstack_begin() {
	runtime.GOMAXPROCS(1)
	clock = faketime.NewManualClock()
	all = stack.New(stack.Options{
		NetworkProtocols:   []stack.NetworkProtocolFactory{ipv4.NewProtocol},
		TransportProtocols: []stack.TransportProtocolFactory{tcp.NewProtocol, icmp.NewProtocol4},
		Clock:              clock,
	})
	link = channel.New(outbound, mtu, "")
	if fault := all.CreateNIC(nic, link); fault != nil {
		panic(fault.String())
	}
	address := tcpip.ProtocolAddress{Protocol: ipv4.ProtocolNumber, AddressWithPrefix: tcpip.AddressWithPrefix{Address: own, PrefixLen: 24}}
	if fault := all.AddProtocolAddress(nic, address, stack.AddressProperties{}); fault != nil {
		panic(fault.String())
	}
	all.SetRouteTable([]tcpip.Route{{Destination: header.IPv4EmptySubnet, NIC: nic}})
	sack := tcpip.TCPSACKEnabled(true)
	all.SetTransportProtocolOption(tcp.ProtocolNumber, &sack)
	settle()
}

//export netstack_advance
func netstack_advance(milliseconds C.ulong) {
	if milliseconds > 0 {
		clock.Advance(time.Duration(milliseconds) * time.Millisecond)
		settle()
	}
}

//export netstack_arrive
func netstack_arrive(packet unsafe.Pointer, length C.int) {
	data := bufferv2.MakeWithData(C.GoBytes(packet, length))
	buffer := stack.NewPacketBuffer(stack.PacketBufferOptions{Payload: data})
	link.InjectInbound(ipv4.ProtocolNumber, buffer)
	buffer.DecRef()
	settle()
}

// netstack_leave copies the next packet that goes out, and answers its length, or 0.
//
//export netstack_leave
func netstack_leave(out unsafe.Pointer, room C.int) C.int {
	packet := link.Read()
	if packet.IsNil() {
		return 0
	}
	length := copy(unsafe.Slice((*byte)(out), int(room)), packet.ToView().AsSlice())
	packet.DecRef()
	return C.int(length)
}

//export netstack_listen
func netstack_listen(port C.ushort, capacity, nagle, ttl, service C.int) C.int {
	end := made(port)
	wish(end, capacity, nagle, ttl, service)
	if fault := end.Listen(backlog); fault != nil {
		return 0
	}
	listeners[uint16(port)] = end
	settle()
	return 1
}

func handle(end tcpip.Endpoint) C.int {
	users = append(users, end)
	return C.int(len(users) - 1)
}

//export netstack_connect
func netstack_connect(port C.ushort, address unsafe.Pointer, to C.ushort, capacity, nagle, ttl, service C.int) C.int {
	end := made(port)
	wish(end, capacity, nagle, ttl, service)
	peer := tcpip.Address(C.GoBytes(address, 4))
	fault := end.Connect(tcpip.FullAddress{NIC: nic, Addr: peer, Port: uint16(to)})
	settle()
	if _, begun := fault.(*tcpip.ErrConnectStarted); !begun && fault != nil {
		return -1
	}
	return handle(end)
}

//export netstack_accept
func netstack_accept(port C.ushort) C.int {
	listener := listeners[uint16(port)]
	if listener == nil {
		return -1
	}
	end, _, fault := listener.Accept(nil)
	if fault != nil {
		return -1
	}
	return handle(end)
}

func faultOf(fault tcpip.Error) C.long {
	switch fault.(type) {
	case *tcpip.ErrWouldBlock, *tcpip.ErrNotConnected:
		return nothing
	case *tcpip.ErrClosedForReceive:
		return ended
	case *tcpip.ErrTimeout:
		return timedOut
	}
	return reset
}

//export netstack_receive
func netstack_receive(user C.int, out unsafe.Pointer, room C.int) C.long {
	into := tcpip.SliceWriter(unsafe.Slice((*byte)(out), int(room)))
	result, fault := users[user].Read(&into, tcpip.ReadOptions{})
	settle()
	if fault == nil {
		return C.long(result.Count)
	}
	// A connection that has failed has its fault elsewhere; one of an open connection is no end of it.
	if last := users[user].LastError(); last != nil && tcp.EndpointState(users[user].State()) == tcp.StateError {
		return faultOf(last)
	}
	return faultOf(fault)
}

//export netstack_send
func netstack_send(user C.int, text unsafe.Pointer, length C.int) C.long {
	count, fault := users[user].Write(bytes.NewReader(C.GoBytes(text, length)), tcpip.WriteOptions{})
	settle()
	if fault == nil {
		return C.long(count)
	}
	return faultOf(fault)
}

//export netstack_shutdown
func netstack_shutdown(user C.int) {
	users[user].Shutdown(tcpip.ShutdownWrite)
	settle()
}

//export netstack_close
func netstack_close(user C.int) {
	users[user].Close()
	settle()
}

//export netstack_abort
func netstack_abort(user C.int) {
	users[user].Abort()
	settle()
}

//export netstack_is_open
func netstack_is_open(user C.int) C.int {
	if tcp.EndpointState(users[user].State()) == tcp.StateEstablished {
		return 1
	}
	return 0
}

//export netstack_wish
func netstack_wish(user, nagle, ttl, service, keeps, idle, interval C.int) C.int {
	end := users[user]
	wish(end, 0, nagle, ttl, service)
	if keeps != 0 {
		if idle > 0 {
			span := tcpip.KeepaliveIdleOption(time.Duration(idle) * time.Millisecond)
			end.SetSockOpt(&span)
		}
		if interval > 0 {
			span := tcpip.KeepaliveIntervalOption(time.Duration(interval) * time.Millisecond)
			end.SetSockOpt(&span)
		}
		end.SocketOptions().SetKeepAlive(true)
	}
	settle()
	return 1
}

func main() {}
