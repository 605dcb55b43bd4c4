// Numbers that came, and the digest of frames that took effect.

package krbrelay

// #include "calls.h"
import "C"

// Window takes each sequence number once: any above the highest that it took, and those less than 64 below it.
// The zero Window took none. One window belongs to one direction of one key, and to one goroutine at a time. Take
// the number of a message after Opener.Open opened it without a demand of the number.
type Window struct {
	Highest uint64 // the highest number that was taken
	Bits    uint64 // whether it was, and the 63 numbers below it: a bit each, 2^63 that of the highest
}

// NewWindow takes the numbers from first on, and none below.
func NewWindow(first uint64) Window {
	var raw C.struct_krbrelay_window
	C.krbrelay_window_new(&raw, C.uint64_t(first))
	return Window{uint64(raw.highest), uint64(raw.taken)}
}

// Take takes a number. ErrRepeated where it was taken before, ErrTooOld where it is 64 or more below the highest:
// then the window is as it was.
func (w *Window) Take(number uint64) error {
	raw := C.struct_krbrelay_window{highest: C.uint64_t(w.Highest), taken: C.uint64_t(w.Bits)}
	err := checked(C.krbrelay_window_take(&raw, C.uint64_t(number)))
	w.Highest, w.Bits = uint64(raw.highest), uint64(raw.taken)
	return err
}

// History is one digest of the frames of a session that took effect, in their order; zeros are no frames. Both
// ends keep and compare it: numbers don't tell two senders apart, one of which was restored or copied. There is
// no secret in it.
type History [HistorySize]byte

// Add adds a frame that took effect, or one that was sealed. ErrProcessor.
func (h *History) Add(frame []byte) error {
	return checked(C.krbrelay_history_add(at(h[:]), at(frame), C.size_t(len(frame))))
}

// Header is what a message says of itself in clear. None of it is authentic until the message is opened. What it
// leaves out is nil.
type Header struct {
	Kind         Mode
	Etype        *int32  // the encryption type of KRB-PRIV
	ChecksumType *int32  // of KRB-SAFE: 15 for encryption type 17, 16 for 18
	Number       *uint32 // the sequence number of KRB-SAFE; that of KRB-PRIV is encrypted
	KeyVersion   *uint32 // the version of the key of KRB-PRIV, kvno (RFC 4120 section 5.2.9)
}

// MessageHeader is what a message says of itself in clear (RFC 4120 sections 5.6.1 and 5.7.1), so that a key can
// be chosen. ErrProcessor, ErrFieldTooLong, ErrMalformed, ErrMemory.
func MessageHeader(frame []byte) (*Header, error) {
	var raw C.struct_krbrelay_header
	if err := checked(C.krbrelay_message_header(at(frame), C.size_t(len(frame)), &raw)); err != nil {
		return nil, err
	}
	header := &Header{Kind: Mode(raw.kind)}
	if header.Kind == Priv {
		header.Etype = Of(int32(raw.etype))
	} else {
		header.ChecksumType = Of(int32(raw.checksum_type))
	}
	if raw.has_number != 0 {
		header.Number = Of(uint32(raw.number))
	}
	if raw.has_key_version != 0 {
		header.KeyVersion = Of(uint32(raw.key_version))
	}
	return header, nil
}
