// Package krbrelay seals and opens KRB-SAFE and KRB-PRIV messages of Kerberos V5 (RFC 4120) under
// encryption types 17 and 18 (RFC 3962), by libkrbrelay, whose functions are proved.
//
// Two ends that both send and receive, over a connection that keeps the order, need a [Peer] each. One end
// that only sends needs a [Sealer], and one that only receives an [Opener], which opens one message at a time,
// or a [Receiver], which takes records in order. A [Window] takes each number once, in any order.
//
// An encryption type is 17 with a key of 16 bytes, or 18 with one of 32. The key is copied into the library's
// heap, and overwritten there by Close; what is forgotten is closed when the garbage collector finds it. The
// caller's own key stays: it is the caller's to overwrite. Goroutines may share a handle: a lock lets one call
// in at a time. After any error a handle is as it was.
//
// What the caller owes: under one session key each direction seals a number once, so store the next number
// before the message leaves; a confounder that is given is 16 bytes that nobody can foresee, new for each
// KRB-PRIV; and both ends have different addresses and demand them, or each direction has a key of its own.
package krbrelay

// #include "calls.h"
import "C"

import "unsafe"

// Version is the version of this package, which is that of the library it was written for.
const Version = "1.1.0"

const (
	// tables/limits.toml: limits, by tools/tables
	// UserDataLimit is the most bytes of user data that are sealed.
	UserDataLimit = 1_000_001
	// FrameLimit is the most bytes of a message that is opened.
	FrameLimit = 1_005_000
	// AddressLimit is the most bytes of an address.
	AddressLimit = 40
	// MostMessages is the most messages that are sealed in one call.
	MostMessages = 64
	// MostFrames is the most frames that are taken in one call.
	MostFrames = 64
	// end of limits
	// PeerStateSize is the bytes of a peer's two numbers.
	PeerStateSize = 20
	// HistorySize is the bytes of a session's history.
	HistorySize = 20

	frameOverhead = 416
)

// FrameSize is a room in which each frame with so many bytes of user data fits, where they are at most
// UserDataLimit.
func FrameSize(len int) int {
	return len + frameOverhead
}

// IsSupported tells whether the processor has the instructions that the library was compiled for. Where it
// hasn't, what makes a handle returns ErrProcessor.
func IsSupported() bool {
	return C.krbrelay_is_supported() != 0
}

// LibraryVersion is the version of the library: major number, minor number and patch.
func LibraryVersion() (major, minor, patch int) {
	version := int(C.krbrelay_version())
	return version >> 16, version >> 8 & 0xff, version & 0xff
}

func at(bytes []byte) *C.uint8_t {
	if len(bytes) == 0 {
		return nil
	}
	return (*C.uint8_t)(unsafe.Pointer(&bytes[0]))
}

type answer = C.enum_krbrelay_answer

// place is where a call writes bytes: the buffer, its room, and what takes their size.
type place struct {
	at   *C.uint8_t
	room C.size_t
	size *C.size_t
}

// written is what a call writes into a buffer of this room.
func written(room int, call func(to place) answer) ([]byte, error) {
	buffer := make([]byte, room)
	var size C.size_t
	if err := checked(call(place{at(buffer), C.size_t(room), &size})); err != nil {
		return nil, err
	}
	return buffer[:size:size], nil
}

// roomOfFrame: what is longer is refused before the room is looked at.
func roomOfFrame(len int) int {
	if len > UserDataLimit {
		return FrameSize(UserDataLimit)
	}
	return FrameSize(len)
}

// roomOfData: a longer frame is refused before the room is looked at.
func roomOfData(frame []byte) int {
	if len(frame) > FrameLimit {
		return FrameLimit
	}
	return len(frame)
}
