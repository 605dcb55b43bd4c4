// Sealing messages.

package krbrelay

// #include "calls.h"
import "C"

import (
	"crypto/rand"
	"fmt"
	"runtime"
	"sync"
	"time"
)

// Sealer seals messages under a session key, with one sequence number after another.
type Sealer struct {
	lock sync.Mutex
	raw  C.struct_krbrelay_sealer
}

// NewSealer makes a sealer. ErrProcessor, ErrEtype, ErrKeySize, ErrMode, ErrMemory.
func NewSealer(etype int32, key []byte, session Session) (*Sealer, error) {
	s, told := &Sealer{}, session.raw()
	if err := checked(C.new_sealer(&s.raw, C.int32_t(etype), at(key), C.size_t(len(key)), &told)); err != nil {
		return nil, err
	}
	runtime.SetFinalizer(s, (*Sealer).Close)
	return s, nil
}

// Seal is the message of the user data at the next sequence number and now, with a confounder of the system's: a
// KRB-SAFE or KRB-PRIV (RFC 4120 sections 3.4.1 and 3.5.1), in DER. ErrClock, ErrRandom, and the errors of
// SealAt.
func (s *Sealer) Seal(userData []byte) ([]byte, error) {
	s.lock.Lock()
	defer s.lock.Unlock()
	return written(roomOfFrame(len(userData)), func(to place) answer {
		return C.krbrelay_sealer_seal_now(&s.raw, at(userData), C.size_t(len(userData)), to.at, to.room, to.size)
	})
}

// SealAt is the same at this moment, with this confounder (RFC 3961 section 5.3), which a KRB-SAFE doesn't use.
// ErrMoment, ErrEmpty, ErrWiped, ErrTooLong, ErrExhausted, ErrMemory.
func (s *Sealer) SealAt(userData []byte, t time.Time, confounder [16]byte) ([]byte, error) {
	now, err := moment(t)
	if err != nil {
		return nil, err
	}
	s.lock.Lock()
	defer s.lock.Unlock()
	return written(roomOfFrame(len(userData)), func(to place) answer {
		return C.krbrelay_sealer_seal(&s.raw, at(userData), C.size_t(len(userData)), &now, at(confounder[:]),
			to.at, to.room, to.size)
	})
}

// Message is what one of several messages is sealed from.
type Message struct {
	UserData   []byte
	Time       time.Time
	Confounder [16]byte // bytes that nobody can foresee; a KRB-SAFE doesn't use them
}

// ManyError says why none of several messages was sealed: Index is the first that can't be, or -1 if it is none of
// them, and Err what sealing it by a call of its own returns.
type ManyError struct {
	Index int
	Err   error
}

func (e *ManyError) Error() string {
	if e.Index < 0 {
		return e.Err.Error()
	}
	return fmt.Sprintf("message %d: %v", e.Index, e.Err)
}

// Unwrap is Err.
func (e *ManyError) Unwrap() error { return e.Err }

// SealMany makes the messages that as many calls of SealAt make one after another: quicker, since the library seals
// eight side by side. All are sealed or none: the error is a *ManyError, with ErrArgument of more than
// MostMessages.
func (s *Sealer) SealMany(messages []Message) ([][]byte, error) {
	return sealMany(&s.lock, messages, func(all *several) answer {
		return C.seal_many(&s.raw, nil, at(all.userData), &all.lens[0], &all.times[0], at(all.confounders),
			C.size_t(len(messages)), at(all.frames), C.size_t(len(all.frames)), &all.sizes[0], &all.failed)
	})
}

// sealMany is SealMany of what has this lock, by a call of C.
func sealMany(lock *sync.Mutex, messages []Message, call func(all *several) answer) ([][]byte, error) {
	if len(messages) == 0 {
		return nil, nil
	}
	if len(messages) > MostMessages {
		return nil, &ManyError{-1, ErrArgument}
	}
	all, err := together(messages)
	if err != nil {
		return nil, err
	}
	defer all.wipe()
	lock.Lock()
	defer lock.Unlock()
	if err := checked(call(all)); err != nil {
		index := int(all.failed)
		if index == len(messages) {
			index = -1
		}
		return nil, &ManyError{index, err}
	}
	made, rest := make([][]byte, len(messages)), all.frames
	for i := range made {
		made[i], rest = rest[:all.sizes[i]:all.sizes[i]], rest[all.sizes[i]:]
	}
	return made, nil
}

// several is what messages are sealed from, as C is given it, and what it writes.
type several struct {
	userData, confounders []byte
	lens                  []C.size_t
	times                 []C.struct_krbrelay_moment
	frames                []byte
	sizes                 [MostMessages]C.size_t
	failed                C.size_t
}

// together puts messages one after the other.
func together(messages []Message) (*several, error) {
	all, size, room := &several{failed: C.size_t(len(messages))}, 0, 0
	for _, it := range messages {
		size += len(it.UserData)
		room += roomOfFrame(len(it.UserData))
	}
	// Of their whole size, so that nothing is copied once more as they grow.
	all.userData, all.frames = make([]byte, 0, size), make([]byte, room)
	all.confounders = make([]byte, 0, len(messages)*len(Message{}.Confounder))
	for i, it := range messages {
		now, err := moment(it.Time)
		if err != nil {
			all.wipe()
			return nil, &ManyError{i, err}
		}
		all.userData = append(all.userData, it.UserData...)
		all.confounders = append(all.confounders, it.Confounder[:]...)
		all.lens = append(all.lens, C.size_t(len(it.UserData)))
		all.times = append(all.times, now)
	}
	return all, nil
}

// wipe overwrites the copies of user data and confounders.
func (all *several) wipe() {
	for _, copies := range [][]byte{all.userData, all.confounders} {
		for i := range copies {
			copies[i] = 0
		}
	}
}

// SealManyNow is SealMany of these user data now, each with a confounder of the system's. ErrRandom, and the errors
// of SealMany.
func (s *Sealer) SealManyNow(userData [][]byte) ([][]byte, error) {
	messages, err := messagesNow(userData)
	if err != nil {
		return nil, err
	}
	return s.SealMany(messages)
}

// messagesNow are the messages of user data now, with confounders of the system's.
func messagesNow(userData [][]byte) ([]Message, error) {
	messages, now := make([]Message, len(userData)), time.Now()
	for i := range messages {
		messages[i].UserData, messages[i].Time = userData[i], now
		if _, err := rand.Read(messages[i].Confounder[:]); err != nil {
			return nil, &ManyError{-1, ErrRandom}
		}
	}
	return messages, nil
}

// SealRecord is the message of a record, which a Receiver takes, as Seal seals user data. ErrRecord where the
// record is too long, or a batch hasn't 2 to 1,000 texts.
func (s *Sealer) SealRecord(record Record) ([]byte, error) {
	kind, bytes, err := record.parts()
	if err != nil {
		return nil, err
	}
	s.lock.Lock()
	defer s.lock.Unlock()
	return written(roomOfFrame(len(bytes)+1), func(to place) answer {
		return C.krbrelay_sealer_seal_record_now(&s.raw, C.uint32_t(kind), at(bytes), C.size_t(len(bytes)),
			to.at, to.room, to.size)
	})
}

// SealRecordAt is the same at this moment, with this confounder.
func (s *Sealer) SealRecordAt(record Record, t time.Time, confounder [16]byte) ([]byte, error) {
	kind, bytes, err := record.parts()
	if err != nil {
		return nil, err
	}
	now, err := moment(t)
	if err != nil {
		return nil, err
	}
	s.lock.Lock()
	defer s.lock.Unlock()
	return written(roomOfFrame(len(bytes)+1), func(to place) answer {
		return C.krbrelay_sealer_seal_record(&s.raw, C.uint32_t(kind), at(bytes), C.size_t(len(bytes)), &now,
			at(confounder[:]), to.at, to.room, to.size)
	})
}

// Next is the next sequence number, 2^32 where none is left. ErrEmpty.
func (s *Sealer) Next() (uint64, error) {
	s.lock.Lock()
	defer s.lock.Unlock()
	var next C.uint64_t
	err := checked(C.krbrelay_sealer_next(&s.raw, &next))
	return uint64(next), err
}

// FrameSize is the exact size of the message of so many bytes of user data at the next sequence number and this
// moment. A record's user data are its bytes and one more. ErrMoment, ErrEmpty, ErrTooLong.
func (s *Sealer) FrameSize(len int, t time.Time) (int, error) {
	now, err := moment(t)
	if err != nil {
		return 0, err
	}
	s.lock.Lock()
	defer s.lock.Unlock()
	var size C.size_t
	err = checked(C.krbrelay_sealer_frame_size(&s.raw, C.size_t(len), &now, &size))
	return int(size), err
}

// SetMode seals in this mode from now on. Key, number and addresses stay. ErrEmpty, ErrMode.
func (s *Sealer) SetMode(mode Mode) error {
	s.lock.Lock()
	defer s.lock.Unlock()
	return checked(C.krbrelay_sealer_set_mode(&s.raw, C.uint32_t(mode)))
}

// Wipe overwrites the keys: sealing returns ErrWiped from then on.
func (s *Sealer) Wipe() {
	s.lock.Lock()
	defer s.lock.Unlock()
	C.krbrelay_sealer_wipe(&s.raw)
}

// Close overwrites the keys and frees what the sealer holds: its calls return ErrEmpty from then on. It returns
// nil, also when it is called again.
func (s *Sealer) Close() error {
	s.lock.Lock()
	defer s.lock.Unlock()
	C.free_sealer(&s.raw)
	return nil
}
