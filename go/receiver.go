// Receiving records in order, each once.

package krbrelay

// #include "calls.h"
import "C"

import (
	"runtime"
	"sync"
	"time"
)

const lastNumber = 1<<32 - 1

// State is what a receiver goes on from.
type State struct {
	Expected uint64 // the sequence number that is demanded next, 2^32 where none is left
	Closed   bool   // whether a close was accepted: nothing is accepted after it
}

// Receiver takes the records of one sender in order, each once.
type Receiver struct {
	lock sync.Mutex
	raw  C.struct_krbrelay_receiver
}

// NewReceiver makes a receiver. With a stored state it goes on where another one stopped. ErrProcessor,
// ErrArgument of a number over 2^32, ErrEtype, ErrKeySize, ErrMode, ErrMemory.
func NewReceiver(etype int32, key []byte, expect Expect, from State) (*Receiver, error) {
	r, told := &Receiver{}, expect.raw()
	err := checked(C.new_receiver(&r.raw, C.int32_t(etype), at(key), C.size_t(len(key)), &told,
		C.uint64_t(from.Expected), flag(from.Closed)))
	if err != nil {
		return nil, err
	}
	runtime.SetFinalizer(r, (*Receiver).Close)
	return r, nil
}

// Take is the record of a message with the demanded number, opened at this moment, such as time.Now(). The next
// number is demanded then, and nothing is accepted after a Closed. Its error is OutOfOrder where the message is
// authentic and meets all but the number. ErrMoment, ErrEmpty, a refusal, ErrMemory.
func (r *Receiver) Take(frame []byte, t time.Time) (Record, error) {
	now, err := moment(t)
	if err != nil {
		return nil, err
	}
	r.lock.Lock()
	defer r.lock.Unlock()
	var kind C.uint32_t
	number := C.uint64_t(lastNumber + 1)
	bytes, err := written(roomOfData(frame), func(to place) answer {
		return C.krbrelay_receiver_take_numbered(&r.raw, at(frame), C.size_t(len(frame)), &now, &kind,
			to.at, to.room, to.size, &number)
	})
	return outcome(err, number, kind, bytes)
}

// outcome is what taking a message gave.
func outcome(err error, number C.uint64_t, kind C.uint32_t, bytes []byte) (Record, error) {
	if err == ErrBadOrder && number <= lastNumber {
		return nil, OutOfOrder{uint32(number)}
	}
	if err != nil {
		return nil, err
	}
	return recordOf(uint32(kind), bytes)
}

// Taken is what taking one of several messages gives: its record, or the error of a call of its own.
type Taken struct {
	Record Record
	Err    error
}

// TakeMany is what as many calls of Take give one after another, at one moment: quicker, since the library computes
// the codes of eight messages side by side. A message that is refused changes nothing, and those after it are
// taken. ErrArgument of more than MostFrames, ErrMoment, ErrEmpty: then no message was taken.
func (r *Receiver) TakeMany(frames [][]byte, t time.Time) ([]Taken, error) {
	now, err := moment(t)
	if err != nil {
		return nil, err
	}
	if len(frames) > MostFrames {
		return nil, ErrArgument
	}
	var lens [MostFrames]C.size_t
	var taken [MostFrames]C.struct_krbrelay_taken
	var all []byte
	room := 0
	for i, frame := range frames {
		lens[i], room, all = C.size_t(len(frame)), room+roomOfData(frame), append(all, frame...)
	}
	records := make([]byte, room)
	r.lock.Lock()
	defer r.lock.Unlock()
	err = checked(C.take_many(&r.raw, at(all), &lens[0], C.size_t(len(frames)), &now, at(records), C.size_t(room),
		&taken[0]))
	if err != nil {
		return nil, err
	}
	return outcomes(taken[:len(frames)], records), nil
}

// outcomes has what was taken, with the records that stand one after the other.
func outcomes(taken []C.struct_krbrelay_taken, records []byte) []Taken {
	found := make([]Taken, len(taken))
	for i, it := range taken {
		err, size := checked(answer(it.answer)), C.size_t(0)
		if err == nil {
			size = it.size
		}
		found[i].Record, found[i].Err = outcome(err, it.number, it.kind, records[:size:size])
		records = records[size:]
	}
	return found
}

// State is what to go on from. ErrEmpty.
func (r *Receiver) State() (State, error) {
	r.lock.Lock()
	defer r.lock.Unlock()
	var expected C.uint64_t
	var closed C.uint32_t
	err := checked(C.krbrelay_receiver_state(&r.raw, &expected, &closed))
	return State{uint64(expected), closed != 0}, err
}

// Close overwrites the keys and frees what the receiver holds, as Sealer.Close does.
func (r *Receiver) Close() error {
	r.lock.Lock()
	defer r.lock.Unlock()
	C.free_receiver(&r.raw)
	return nil
}
