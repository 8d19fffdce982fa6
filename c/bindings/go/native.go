//go:build tcpcore_native

package tcpcore

// With the tag tcpcore_native the installed library is linked, libtcpcore.a or libtcpcore.so, in the place of the one C file: what the
// tarball's `make PREBUILT=yes install` has installed, or what CGO_LDFLAGS=-LFOLDER tells.

// #cgo LDFLAGS: -ltcpcore
import "C"
