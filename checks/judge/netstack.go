// The server of users.py on gVisor's netstack, whose packets go through the socket that is file 3. It is built against Debian's
// golang-gvisor-gvisor-dev. The server has no way to reset a connection once it has read all: `r` closes it.
package main

import (
	"context"
	"encoding/binary"
	"fmt"
	"io"
	"net"
	"os"
	"syscall"
	"time"

	"gvisor.dev/gvisor/pkg/bufferv2"
	"gvisor.dev/gvisor/pkg/tcpip"
	"gvisor.dev/gvisor/pkg/tcpip/adapters/gonet"
	"gvisor.dev/gvisor/pkg/tcpip/header"
	"gvisor.dev/gvisor/pkg/tcpip/link/channel"
	"gvisor.dev/gvisor/pkg/tcpip/network/ipv4"
	"gvisor.dev/gvisor/pkg/tcpip/stack"
	"gvisor.dev/gvisor/pkg/tcpip/transport/tcp"
)

const (
	wire  = 3
	mtu   = 1500
	nic   = 1
	port  = 7
	piece = 700
	pause = 2 * time.Millisecond
)

func need(err interface{}) {
	if fmt.Sprint(err) != "<nil>" {
		fmt.Fprintln(os.Stderr, err)
		os.Exit(1)
	}
}

func newStack(address string) (*stack.Stack, *channel.Endpoint) {
	whole := stack.New(stack.Options{
		NetworkProtocols:   []stack.NetworkProtocolFactory{ipv4.NewProtocol},
		TransportProtocols: []stack.TransportProtocolFactory{tcp.NewProtocol},
	})
	permits := tcpip.TCPSACKEnabled(true)
	need(whole.SetTransportProtocolOption(tcp.ProtocolNumber, &permits))
	link := channel.New(4096, mtu, "")
	need(whole.CreateNIC(nic, link))
	own := tcpip.Address(net.ParseIP(address).To4())
	need(whole.AddProtocolAddress(nic, tcpip.ProtocolAddress{Protocol: ipv4.ProtocolNumber, AddressWithPrefix: own.WithPrefix()}, stack.AddressProperties{}))
	whole.SetRouteTable([]tcpip.Route{{Destination: header.IPv4EmptySubnet, NIC: nic}})
	return whole, link
}

func sendAll(link *channel.Endpoint) {
	for {
		packet := link.ReadContext(context.Background())
		syscall.Write(wire, packet.ToView().AsSlice())
		packet.DecRef()
	}
}

func takeAll(link *channel.Endpoint) {
	room := make([]byte, 65536)
	for {
		length, err := syscall.Read(wire, room)
		if err != nil || length == 0 {
			os.Exit(0)
		}
		bytes := append([]byte(nil), room[:length]...)
		packet := stack.NewPacketBuffer(stack.PacketBufferOptions{Payload: bufferv2.MakeWithData(bytes)})
		link.InjectInbound(ipv4.ProtocolNumber, packet)
		packet.DecRef()
	}
}

func body(size int) []byte {
	text := make([]byte, size)
	for i := range text {
		text[i] = byte(i*7 + i/251)
	}
	return text
}

func answer(end net.Conn) {
	defer end.Close()
	head := make([]byte, 5)
	if _, err := io.ReadFull(end, head); err != nil {
		return
	}
	kind, size := head[0], int(binary.BigEndian.Uint32(head[1:]))
	if kind == 's' {
		time.Sleep(time.Second)
	}
	if kind == 'd' {
		end.Write(body(size))
		return
	}
	if kind == 'e' || kind == 'a' {
		io.Copy(end, end)
		return
	}
	io.Copy(io.Discard, end)
	for text := body(size); kind == 'h' && len(text) > 0; time.Sleep(pause) {
		length := piece
		if length > len(text) {
			length = len(text)
		}
		if _, err := end.Write(text[:length]); err != nil {
			return
		}
		text = text[length:]
	}
	if kind == 's' {
		end.Write([]byte("done"))
	}
}

func main() {
	address := os.Args[1]
	whole, link := newStack(address)
	go sendAll(link)
	go takeAll(link)
	own := tcpip.FullAddress{NIC: nic, Addr: tcpip.Address(net.ParseIP(address).To4()), Port: port}
	listener, err := gonet.ListenTCP(whole, own, ipv4.ProtocolNumber)
	need(err)
	fmt.Println("ready")
	for {
		end, err := listener.Accept()
		need(err)
		go answer(end)
	}
}
