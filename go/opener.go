// Opening messages one at a time.

package krbrelay

// #include "calls.h"
import "C"

import (
	"runtime"
	"sync"
	"time"
)

// Opener opens messages under a session key. It keeps no sequence number: the caller demands each.
type Opener struct {
	lock sync.Mutex
	raw  C.struct_krbrelay_opener
}

// NewOpener makes an opener. Open reads of what it expects the mode alone. ErrProcessor, ErrEtype, ErrKeySize,
// ErrMode, ErrMemory.
func NewOpener(etype int32, key []byte, expect Expect) (*Opener, error) {
	o, told := &Opener{}, expect.raw()
	if err := checked(C.new_opener(&o.raw, C.int32_t(etype), at(key), C.size_t(len(key)), &told)); err != nil {
		return nil, err
	}
	runtime.SetFinalizer(o, (*Opener).Close)
	return o, nil
}

// Unseal is the user data of a message with this sequence number (RFC 4120 sections 3.4.2 and 3.5.2), opened at
// this moment, such as time.Now(). ErrMoment, ErrEmpty, ErrWiped, a refusal, ErrMemory.
func (o *Opener) Unseal(frame []byte, number uint64, t time.Time) ([]byte, error) {
	now, err := moment(t)
	if err != nil {
		return nil, err
	}
	o.lock.Lock()
	defer o.lock.Unlock()
	return written(roomOfData(frame), func(to place) answer {
		return C.krbrelay_opener_unseal(&o.raw, at(frame), C.size_t(len(frame)), C.uint64_t(number), &now,
			to.at, to.room, to.size)
	})
}

// Open is what an authentic message carries, if it meets the demands at this moment. What isn't demanded is the
// caller's to compare. ErrMoment, ErrEmpty, ErrWiped, ErrArgument of a demand that there isn't, a refusal,
// ErrMemory.
func (o *Opener) Open(frame []byte, demand Demand, t time.Time) (*Body, error) {
	now, err := moment(t)
	if err != nil {
		return nil, err
	}
	o.lock.Lock()
	defer o.lock.Unlock()
	told := demand.raw()
	var carried C.struct_krbrelay_carried
	data, err := written(roomOfData(frame), func(to place) answer {
		return C.krbrelay_opener_open(&o.raw, at(frame), C.size_t(len(frame)), &told, &now,
			to.at, to.room, to.size, &carried)
	})
	if err != nil {
		return nil, err
	}
	return bodyOf(data, &carried), nil
}

// Wipe overwrites the keys: opening returns ErrWiped from then on.
func (o *Opener) Wipe() {
	o.lock.Lock()
	defer o.lock.Unlock()
	C.krbrelay_opener_wipe(&o.raw)
}

// Close overwrites the keys and frees what the opener holds, as Sealer.Close does.
func (o *Opener) Close() error {
	o.lock.Lock()
	defer o.lock.Unlock()
	C.free_opener(&o.raw)
	return nil
}
