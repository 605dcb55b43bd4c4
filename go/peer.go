// An end that sends and receives.

package krbrelay

// #include "calls.h"
import "C"

import (
	"runtime"
	"sync"
	"time"
)

// Numbers are the sequence numbers of a peer, each 2^32 where none is left.
type Numbers struct {
	Next     uint64 // the one that is sealed next
	Expected uint64 // the one that is expected next of the other end
}

// Peer is one end of a session: it seals under its own sequence numbers, and opens what the other end sealed in
// order, each message once. One key serves both directions: so the ends need different addresses, such as Client
// and Server, and each demands the other's.
type Peer struct {
	lock sync.Mutex
	raw  C.struct_krbrelay_peer
}

// NewPeer makes a peer, which writes what the session says, and demands the rest of the other end's messages. The
// demand's number is the first that is expected, 0 where it is nil. ErrProcessor, ErrArgument of a number over
// 2^32 and of IfPresent for it, ErrEtype, ErrKeySize, ErrMode, ErrMemory.
func NewPeer(etype int32, key []byte, session Session, demand Demand) (*Peer, error) {
	return makePeer(etype, key, session, demand, nil)
}

// ResumePeer goes on from what Peer.Export returned. The session's first number is 0, and the demand's number
// nil or 0: else ErrArgument, as of bytes that are no export. ErrExhausted where no number is left to seal
// under.
func ResumePeer(etype int32, key []byte, session Session, demand Demand, state [PeerStateSize]byte) (*Peer, error) {
	return makePeer(etype, key, session, demand, state[:])
}

func makePeer(etype int32, key []byte, session Session, demand Demand, state []byte) (*Peer, error) {
	if demand.Number == nil {
		demand.Number = Of(uint64(0))
	}
	p, writes, demands := &Peer{}, session.raw(), demand.raw()
	err := checked(C.new_peer(&p.raw, C.int32_t(etype), at(key), C.size_t(len(key)), &writes, &demands, at(state)))
	if err != nil {
		return nil, err
	}
	runtime.SetFinalizer(p, (*Peer).Close)
	return p, nil
}

// Seal is the message of the user data at the next sequence number and now, as Sealer.Seal makes it.
func (p *Peer) Seal(userData []byte) ([]byte, error) {
	p.lock.Lock()
	defer p.lock.Unlock()
	return written(roomOfFrame(len(userData)), func(to place) answer {
		return C.krbrelay_peer_seal_now(&p.raw, at(userData), C.size_t(len(userData)), to.at, to.room, to.size)
	})
}

// SealAt is the same at this moment, with this confounder. ErrMoment, ErrEmpty, ErrTooLong, ErrExhausted,
// ErrMemory.
func (p *Peer) SealAt(userData []byte, t time.Time, confounder [16]byte) ([]byte, error) {
	now, err := moment(t)
	if err != nil {
		return nil, err
	}
	p.lock.Lock()
	defer p.lock.Unlock()
	return written(roomOfFrame(len(userData)), func(to place) answer {
		return C.krbrelay_peer_seal(&p.raw, at(userData), C.size_t(len(userData)), &now, at(confounder[:]),
			to.at, to.room, to.size)
	})
}

// SealMany makes the messages that as many calls of SealAt make one after another, as Sealer.SealMany makes them.
func (p *Peer) SealMany(messages []Message) ([][]byte, error) {
	return sealMany(&p.lock, messages, func(all *several) answer {
		return C.seal_many(nil, &p.raw, at(all.userData), &all.lens[0], &all.times[0], at(all.confounders),
			C.size_t(len(messages)), at(all.frames), C.size_t(len(all.frames)), &all.sizes[0], &all.failed)
	})
}

// SealManyNow is SealMany of these user data now, as Sealer.SealManyNow makes them.
func (p *Peer) SealManyNow(userData [][]byte) ([][]byte, error) {
	messages, err := messagesNow(userData)
	if err != nil {
		return nil, err
	}
	return p.SealMany(messages)
}

// Open is what a message of the other end with the expected number carries, opened at this moment, such as
// time.Now(). The number is one more then. Its error is OutOfOrder, or ErrBadOrder of a message without a number,
// where the message is authentic and meets all but the number. ErrMoment, ErrEmpty, a refusal, ErrMemory.
func (p *Peer) Open(frame []byte, t time.Time) (*Body, error) {
	now, err := moment(t)
	if err != nil {
		return nil, err
	}
	p.lock.Lock()
	defer p.lock.Unlock()
	var carried C.struct_krbrelay_carried
	data, err := written(roomOfData(frame), func(to place) answer {
		return C.krbrelay_peer_open(&p.raw, at(frame), C.size_t(len(frame)), &now, to.at, to.room, to.size, &carried)
	})
	if err == ErrBadOrder && carried.has_number != 0 {
		return nil, OutOfOrder{uint32(carried.number)}
	}
	if err != nil {
		return nil, err
	}
	return bodyOf(data, &carried), nil
}

// Numbers are the next number and the expected one. ErrEmpty.
func (p *Peer) Numbers() (Numbers, error) {
	p.lock.Lock()
	defer p.lock.Unlock()
	var next, expected C.uint64_t
	err := checked(C.krbrelay_peer_state(&p.raw, &next, &expected))
	return Numbers{uint64(next), uint64(expected)}, err
}

// Export is both numbers, without a secret. Store them before the messages that were sealed are sent: a peer that
// goes on from them seals no number twice. ErrEmpty.
func (p *Peer) Export() (state [PeerStateSize]byte, err error) {
	p.lock.Lock()
	defer p.lock.Unlock()
	err = checked(C.krbrelay_peer_export(&p.raw, at(state[:])))
	return state, err
}

// Close overwrites the keys and frees what the peer holds, as Sealer.Close does.
func (p *Peer) Close() error {
	p.lock.Lock()
	defer p.lock.Unlock()
	C.free_peer(&p.raw)
	return nil
}
