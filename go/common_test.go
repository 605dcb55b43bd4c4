// What the tests have in common.

package krbrelay_test

import (
	"encoding/hex"
	"os"
	"strings"
	"testing"
	"time"

	"krbrelay"
)

const first, last = 7, 1<<32 - 1

var (
	key128   = []byte{0, 1, 2, 3, 4, 5, 6, 7, 8, 9, 10, 11, 12, 13, 14, 15}
	key256   = []byte(strings.Repeat("\x11", 32))
	sender   = address(krbrelay.IPv4, 10, 0, 0, 1)
	receiver = address(krbrelay.IPv4, 10, 0, 0, 255)
	// The time of all frames.
	then = time.Unix(1_700_000_000, 5_000)
	// What RFC 8439 appendix A.1 gives first for a key of zeros.
	drawn = [][16]byte{
		{0x76, 0xb8, 0xe0, 0xad, 0xa0, 0xf1, 0x3d, 0x90, 0x40, 0x5d, 0x6a, 0xe5, 0x53, 0x86, 0xbd, 0x28},
		{0xbd, 0xd2, 0x19, 0xb8, 0xa0, 0x8d, 0xed, 0x1a, 0xa8, 0x36, 0xef, 0xcc, 0x8b, 0x77, 0x0d, 0xc7},
		{0xda, 0x41, 0x59, 0x7c, 0x51, 0x57, 0x48, 0x8d, 0x77, 0x24, 0xe0, 0x3f, 0xb8, 0xd8, 0x4a, 0x37},
	}
)

func address(kind int32, bytes ...byte) krbrelay.Address {
	made, err := krbrelay.NewAddress(kind, bytes)
	if err != nil {
		panic(err)
	}
	return made
}

// must is the value of a call that has no error here.
func must[T any](t *testing.T) func(value T, err error) T {
	return func(value T, err error) T {
		t.Helper()
		if err != nil {
			t.Fatal(err)
		}
		return value
	}
}

// frames are those of the independent sealer, by their names (tests/frames.py of the repository).
func frames(t *testing.T) map[string][]byte {
	t.Helper()
	text := string(must[[]byte](t)(os.ReadFile("testdata/frames.txt")))
	found := map[string][]byte{}
	lines := strings.Split(strings.TrimSpace(text), "\n")
	for place := 0; place+1 < len(lines); place += 2 {
		name := lines[place][:strings.LastIndex(lines[place], " (")]
		found[name] = must[[]byte](t)(hex.DecodeString(strings.TrimSpace(lines[place+1])))
	}
	if len(found) < 25 {
		t.Fatal("frames are missing")
	}
	return found
}

func session(mode krbrelay.Mode, number uint32) krbrelay.Session {
	return krbrelay.Session{Mode: mode, First: number, Sender: sender}
}

func expect(mode krbrelay.Mode) krbrelay.Expect {
	return krbrelay.NewExpect(mode, sender, receiver)
}

func etypeOf(key []byte) int32 {
	if len(key) == 32 {
		return 18
	}
	return 17
}
