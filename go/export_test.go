// What the tests see of the package's insides.

package krbrelay

import "sync"

// Held takes the lock of a handle; the result gives it back.
func Held(handle any) func() {
	var lock *sync.Mutex
	switch it := handle.(type) {
	case *Sealer:
		lock = &it.lock
	case *Opener:
		lock = &it.lock
	case *Receiver:
		lock = &it.lock
	case *Peer:
		lock = &it.lock
	}
	lock.Lock()
	return lock.Unlock
}
