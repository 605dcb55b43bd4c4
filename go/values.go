// Modes, addresses, sessions and demands.

package krbrelay

// #include "calls.h"
import "C"

import (
	"fmt"
	"net/netip"
	"time"
)

// Mode is a kind of messages (RFC 4120 section 5.10).
type Mode uint32

const (
	// Safe is KRB-SAFE: user data in clear under a checksum (RFC 4120 section 5.6).
	Safe Mode = 20
	// Priv is KRB-PRIV: user data encrypted (RFC 4120 section 5.7).
	Priv Mode = 21
)

// Types of addresses (RFC 4120 section 7.5.3).
const (
	IPv4        int32 = 2
	Directional int32 = 3
	IPv6        int32 = 24
)

// Address is an address of a host (RFC 4120 sections 5.2.5 and 7.5.3). Two of them are compared by ==.
type Address struct {
	kind  int32
	bytes string
}

var (
	// Client is the directional address of the client's end (RFC 4120 section 7.1).
	Client = Address{Directional, "\x00\x00\x00\x00"}
	// Server is the directional address of the server's end.
	Server = Address{Directional, "\x00\x00\x00\x01"}
)

// NewAddress is the address of this type with these bytes, in network order. ErrAddress of more than
// AddressLimit.
func NewAddress(kind int32, bytes []byte) (Address, error) {
	if len(bytes) > AddressLimit {
		return Address{}, ErrAddress
	}
	return Address{kind, string(bytes)}, nil
}

// AddressOf is the address of an IP address. One of IPv4 that is mapped into IPv6 is the one of IPv4.
func AddressOf(ip netip.Addr) Address {
	ip = ip.Unmap()
	if ip.Is4() {
		return Address{IPv4, string(ip.AsSlice())}
	}
	return Address{IPv6, string(ip.AsSlice())}
}

// Kind is the type, a number of RFC 4120 section 7.5.3.
func (a Address) Kind() int32 {
	return a.kind
}

// Bytes is a copy of the bytes, in network order.
func (a Address) Bytes() []byte {
	return []byte(a.bytes)
}

// String is as 10.0.0.1 or 2001:db8::1; of another type its number, a colon and its digits.
func (a Address) String() string {
	if ip, ok := netip.AddrFromSlice([]byte(a.bytes)); ok && AddressOf(ip) == a {
		return ip.String()
	}
	return fmt.Sprintf("%d:%x", a.kind, a.bytes)
}

func (a Address) raw() (raw C.struct_krbrelay_address) {
	raw.kind, raw.len = C.int32_t(a.kind), C.uint32_t(len(a.bytes))
	for place := 0; place < len(a.bytes); place++ {
		raw.bytes[place] = C.uint8_t(a.bytes[place])
	}
	return raw
}

func addressOf(raw *C.struct_krbrelay_address) Address {
	bytes := make([]byte, raw.len)
	for place := range bytes {
		bytes[place] = byte(raw.bytes[place])
	}
	return Address{int32(raw.kind), string(bytes)}
}

// Of is a place with the value, for the fields of a Demand.
func Of[T any](value T) *T {
	return &value
}

func flag(is bool) C.uint32_t {
	if is {
		return 1
	}
	return 0
}

// moment is the time as the library has it: of the years 1970 to 9999, else ErrMoment.
func moment(t time.Time) (raw C.struct_krbrelay_moment, err error) {
	if t.Unix() < 0 {
		return raw, ErrMoment
	}
	raw.seconds, raw.microseconds = C.uint64_t(t.Unix()), C.uint32_t(t.Nanosecond()/1000)
	return raw, nil
}

// Session is what a Sealer or a Peer writes into each message.
type Session struct {
	Mode  Mode
	First uint32 // the first sequence number
	// The sender's address.
	Sender Address
	// The receiver's address, or nil: the messages don't carry it.
	Receiver *Address
}

func (s Session) raw() (raw C.struct_krbrelay_session) {
	raw.mode, raw.first, raw.sender = C.uint32_t(s.Mode), C.uint32_t(s.First), s.Sender.raw()
	if s.Receiver != nil {
		raw.has_receiver, raw.receiver = 1, s.Receiver.raw()
	}
	return raw
}

// Expect is what Opener.Unseal and a Receiver demand of each message.
type Expect struct {
	Mode             Mode
	Sender, Receiver Address
	// A message may leave the receiver's address out unless RequireReceiver, and its time only under OptionalTime.
	RequireReceiver, OptionalTime bool
	// How many seconds a message's time may be off from the moment of opening.
	Skew uint32
}

// NewExpect demands a time that is off by 300 seconds at most; a message may leave the receiver's address
// out.
func NewExpect(mode Mode, sender, receiver Address) Expect {
	return Expect{Mode: mode, Sender: sender, Receiver: receiver, Skew: 300}
}

func (e Expect) raw() (raw C.struct_krbrelay_expect) {
	raw.mode, raw.sender, raw.receiver = C.uint32_t(e.Mode), e.Sender.raw(), e.Receiver.raw()
	raw.require_receiver, raw.require_time = flag(e.RequireReceiver), flag(!e.OptionalTime)
	raw.skew = C.uint32_t(e.Skew)
	return raw
}

// How a demand treats a message that leaves the field out.
type How uint32

const (
	// Required: it doesn't meet the demand.
	Required How = iota
	// IfPresent: it meets the demand.
	IfPresent
	// AbsentIs0, of numbers and times: an integer that is left out is 0 (RFC 4120 section 5.1.2). The message
	// has the number 0, or its time is a whole second.
	AbsentIs0
)

func (h How) raw() C.uint32_t {
	switch h {
	case Required:
		return C.KRBRELAY_REQUIRED
	case IfPresent:
		return C.KRBRELAY_IF_PRESENT
	case AbsentIs0:
		return C.KRBRELAY_ABSENT_IS_0
	}
	return C.KRBRELAY_ABSENT_IS_0 + 1 // none, which the library refuses by ErrArgument
}

// Demand is what Opener.Open and a Peer demand of an authentic message: of each field that isn't nil, that the
// message's fits. The checks come in the order of addresses, time, number, and whether one of both is there.
type Demand struct {
	Sender, Receiver *Address
	// How many seconds the message's time may be off from the moment of opening.
	Skew *uint32
	// The sequence number.
	Number *uint64

	HowReceiver, HowTime, HowNumber How
	// Whether a message that carries neither its time nor its number is refused, as RFC 4120 asks in sections
	// 3.4.2 and 3.5.2.
	NeedsTimeOrNumber bool
}

// DemandOf demands the sender's address, and a time that is off by 300 seconds at most.
func DemandOf(sender Address) Demand {
	return Demand{Sender: &sender, Skew: Of(uint32(300))}
}

func (d Demand) raw() (raw C.struct_krbrelay_demand) {
	if d.Sender != nil {
		raw.how_sender, raw.sender = C.KRBRELAY_REQUIRED, d.Sender.raw()
	}
	if d.Receiver != nil {
		raw.how_receiver, raw.receiver = d.HowReceiver.raw(), d.Receiver.raw()
	}
	if d.Skew != nil {
		raw.how_time, raw.skew = d.HowTime.raw(), C.uint32_t(*d.Skew)
	}
	if d.Number != nil {
		raw.how_number, raw.number = d.HowNumber.raw(), C.uint64_t(*d.Number)
	}
	raw.needs_time_or_number = flag(d.NeedsTimeOrNumber)
	return raw
}

// Body is what an authentic message carries (KRB-SAFE-BODY and EncKrbPrivPart, RFC 4120 sections 5.6.1 and
// 5.7.1). What it leaves out is nil.
type Body struct {
	UserData     []byte
	Seconds      *uint64 // of its time, since 1970-01-01T00:00:00Z
	Microseconds *uint32 // of its time, below a million
	Number       *uint32
	Sender       Address
	Receiver     *Address
}

// Moment is its time with its microseconds, in UTC, and whether it has a time.
func (b Body) Moment() (time.Time, bool) {
	if b.Seconds == nil {
		return time.Time{}, false
	}
	var micros int64
	if b.Microseconds != nil {
		micros = int64(*b.Microseconds)
	}
	return time.Unix(int64(*b.Seconds), micros*1000).UTC(), true
}

func bodyOf(userData []byte, raw *C.struct_krbrelay_carried) *Body {
	body := &Body{UserData: userData, Sender: addressOf(&raw.sender)}
	if raw.has_seconds != 0 {
		body.Seconds = Of(uint64(raw.seconds))
	}
	if raw.has_microseconds != 0 {
		body.Microseconds = Of(uint32(raw.microseconds))
	}
	if raw.has_number != 0 {
		body.Number = Of(uint32(raw.number))
	}
	if raw.has_receiver != 0 {
		body.Receiver = Of(addressOf(&raw.receiver))
	}
	return body
}
