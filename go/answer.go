// Why a call did nothing: its number, its name and its class.

package krbrelay

// #include "calls.h"
import "C"

// Answer is why a call did nothing, by its number in krbrelay.h. It is an error: errors.Is compares it with the
// constants below. What the call would have changed is as it was.
type Answer uint32

// The numbers from 14 to 61 are those of RFC 4120 section 7.5.9.
const (
	// of tables/answers.toml: answers
	// ErrWiped: the keys were overwritten.
	ErrWiped Answer = 1
	// ErrTooLong: the user data are longer than a message may carry.
	ErrTooLong Answer = 2
	// ErrExhausted: no sequence number is left.
	ErrExhausted Answer = 3
	// ErrEtypeNoSupp: another encryption type.
	ErrEtypeNoSupp Answer = 14
	// ErrBadIntegrity: the encrypted part is too short, or its integrity check fails.
	ErrBadIntegrity Answer = 31
	// ErrSkew: the time is off by more than the skew, or is missing.
	ErrSkew Answer = 37
	// ErrBadAddr: an address isn't the expected one, or is missing.
	ErrBadAddr Answer = 38
	// ErrBadVersion: the protocol version isn't 5.
	ErrBadVersion Answer = 39
	// ErrMsgType: the message isn't of the expected kind, KRB-SAFE or KRB-PRIV.
	ErrMsgType Answer = 40
	// ErrModified: the checksum differs.
	ErrModified Answer = 41
	// ErrBadOrder: another sequence number.
	ErrBadOrder Answer = 42
	// ErrInappCksum: another type of checksum.
	ErrInappCksum Answer = 50
	// ErrFieldTooLong: over FRAME_LIMIT bytes.
	ErrFieldTooLong Answer = 61
	// ErrMalformed: not a DER-encoded KRB-SAFE or KRB-PRIV message.
	ErrMalformed Answer = 901
	// ErrBadRecord: of receivers: the user data aren't a record.
	ErrBadRecord Answer = 902
	// ErrAfterClose: of receivers: a close was accepted before.
	ErrAfterClose Answer = 903
	// ErrMemory: out of memory.
	ErrMemory Answer = 904
	// ErrEtype: the encryption type is neither 17 nor 18.
	ErrEtype Answer = 905
	// ErrRoom: a buffer is too small.
	ErrRoom Answer = 906
	// ErrEmpty: the handle holds nothing.
	ErrEmpty Answer = 907
	// ErrKeySize: the key hasn't the size of its encryption type.
	ErrKeySize Answer = 908
	// ErrMode: the mode is neither KRB-SAFE nor KRB-PRIV.
	ErrMode Answer = 909
	// ErrMoment: the time is outside the years 1970 to 9999.
	ErrMoment Answer = 910
	// ErrAddress: an address has over 40 bytes.
	ErrAddress Answer = 911
	// ErrArgument: an argument is out of its range.
	ErrArgument Answer = 912
	// ErrRecord: the texts don't fit in a record.
	ErrRecord Answer = 913
	// ErrClock: the clock can't be read, or isn't in the years 1970 to 9999.
	ErrClock Answer = 914
	// ErrRandom: the system has no random bytes.
	ErrRandom Answer = 915
	// ErrProcessor: the processor lacks instructions of the library.
	ErrProcessor Answer = 916
	// ErrRepeated: of windows: the number was taken before.
	ErrRepeated Answer = 917
	// ErrTooOld: of windows: the number is too far below the highest that was taken.
	ErrTooOld Answer = 918
	// end of answers
)

var names = map[Answer]string{
	// of tables/answers.toml: names
	ErrWiped:        "WIPED",
	ErrTooLong:      "TOO_LONG",
	ErrExhausted:    "EXHAUSTED",
	ErrEtypeNoSupp:  "ETYPE_NOSUPP",
	ErrBadIntegrity: "BAD_INTEGRITY",
	ErrSkew:         "SKEW",
	ErrBadAddr:      "BADADDR",
	ErrBadVersion:   "BADVERSION",
	ErrMsgType:      "MSG_TYPE",
	ErrModified:     "MODIFIED",
	ErrBadOrder:     "BADORDER",
	ErrInappCksum:   "INAPP_CKSUM",
	ErrFieldTooLong: "FIELD_TOOLONG",
	ErrMalformed:    "MALFORMED",
	ErrBadRecord:    "BAD_RECORD",
	ErrAfterClose:   "AFTER_CLOSE",
	ErrMemory:       "MEMORY",
	ErrEtype:        "ETYPE",
	ErrRoom:         "ROOM",
	ErrEmpty:        "EMPTY",
	ErrKeySize:      "KEY_SIZE",
	ErrMode:         "MODE",
	ErrMoment:       "MOMENT",
	ErrAddress:      "ADDRESS",
	ErrArgument:     "ARGUMENT",
	ErrRecord:       "RECORD",
	ErrClock:        "CLOCK",
	ErrRandom:       "RANDOM",
	ErrProcessor:    "PROCESSOR",
	ErrRepeated:     "REPEATED",
	ErrTooOld:       "TOO_OLD",
	// end of names
}

// Class is what a caller does about an answer.
type Class uint32

const (
	// ClassRefusal drops the message: it isn't authentic, or isn't what is demanded.
	ClassRefusal Class = 1
	// ClassCaller is mistaken in an argument: the same call fails again.
	ClassCaller Class = 2
	// ClassState needs another handle.
	ClassState Class = 3
	// ClassMemory may try again.
	ClassMemory Class = 4
	// ClassSystem looks at the machine: its clock, its random bytes, its processor.
	ClassSystem Class = 5
	// ClassUnknown stops: no answer of the library.
	ClassUnknown Class = 6
)

// Error is what krbrelay_strerror says, as "the sequence number isn't the expected one".
func (a Answer) Error() string {
	return C.GoString(C.krbrelay_strerror(C.uint32_t(a)))
}

// Name is the answer's name, as "BADORDER"; "" of a number that no answer has.
func (a Answer) Name() string {
	return names[a]
}

// Class is what a caller does about it.
func (a Answer) Class() Class {
	return Class(C.krbrelay_class_of(C.uint32_t(a)))
}

// IsRefusal tells whether a message or a number is refused: it is to be dropped.
func (a Answer) IsRefusal() bool {
	return a.Class() == ClassRefusal
}

// OutOfOrder is the error of an authentic message that meets all demands but the number's. Number is the one
// that it carries: below the demanded one it is a repeat, above it a gap. errors.Is(err, ErrBadOrder) holds.
type OutOfOrder struct {
	Number uint32
}

// Error is what krbrelay_strerror says.
func (o OutOfOrder) Error() string {
	return ErrBadOrder.Error()
}

// Unwrap is ErrBadOrder.
func (o OutOfOrder) Unwrap() error {
	return ErrBadOrder
}

func checked(told answer) error {
	if told == C.KRBRELAY_OK {
		return nil
	}
	return Answer(told)
}
