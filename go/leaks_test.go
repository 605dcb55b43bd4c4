// Handles that are freed.

package krbrelay_test

import (
	"fmt"
	"os"
	"runtime"
	"testing"

	"krbrelay"
)

// resident is the bytes of this process that lie in memory.
func resident(t *testing.T) int {
	text := must[[]byte](t)(os.ReadFile("/proc/self/statm"))
	var all, pages int
	must[int](t)(fmt.Sscan(string(text), &all, &pages))
	return pages * os.Getpagesize()
}

func makeAndClose(t *testing.T, times int) {
	for count := 0; count < times; count++ {
		must[*krbrelay.Sealer](t)(krbrelay.NewSealer(18, key256, session(krbrelay.Priv, 0))).Close()
		must[*krbrelay.Opener](t)(krbrelay.NewOpener(18, key256, expect(krbrelay.Priv))).Close()
		must[*krbrelay.Receiver](t)(krbrelay.NewReceiver(18, key256, expect(krbrelay.Priv), krbrelay.State{})).Close()
		must[*krbrelay.Peer](t)(krbrelay.NewPeer(18, key256, session(krbrelay.Priv, 0), krbrelay.DemandOf(sender))).Close()
	}
	runtime.GC()
}

// Each of the handles has hundreds of bytes of C's heap, so leaking one kind of them would take more.
func TestHandlesAreFreed(t *testing.T) {
	const times, most = 10_000, 5 << 20
	makeAndClose(t, times)
	before := resident(t)
	makeAndClose(t, times)
	if more := resident(t) - before; more > most {
		t.Errorf("%d bytes more", more)
	}
}
