// The examples of the package's page.

package krbrelay_test

import (
	"errors"
	"fmt"
	"time"

	"krbrelay"
)

// Seals a text as KRB-PRIV at one end of a session, and opens it at the other.
func Example() {
	// The key of the session, of encryption type 17, comes from the exchange before it.
	key := []byte("chicken teriyaki")
	alice, _ := krbrelay.NewAddress(krbrelay.IPv4, []byte{10, 0, 0, 1})
	bob, _ := krbrelay.NewAddress(krbrelay.IPv4, []byte{10, 0, 0, 255})

	sealer, err := krbrelay.NewSealer(17, key, krbrelay.Session{Mode: krbrelay.Priv, First: 7, Sender: alice})
	if err != nil {
		panic(err)
	}
	defer sealer.Close()
	frame, err := sealer.Seal([]byte("hello"))
	if err != nil {
		panic(err)
	}

	opener, err := krbrelay.NewOpener(17, key, krbrelay.NewExpect(krbrelay.Priv, alice, bob))
	if err != nil {
		panic(err)
	}
	defer opener.Close()
	text, err := opener.Unseal(frame, 7, time.Now())
	fmt.Printf("message 7: %s, %v\n", text, err)
	// The same frame isn't message 8.
	_, err = opener.Unseal(frame, 8, time.Now())
	fmt.Println(err, errors.Is(err, krbrelay.ErrBadOrder))
	// Output:
	// message 7: hello, <nil>
	// the sequence number isn't the expected one true
}

func ExampleWindow() {
	window := krbrelay.NewWindow(0)
	fmt.Println(window.Take(70), window.Take(7))
	fmt.Println(window.Take(7))
	fmt.Println(window.Take(6))
	// Output:
	// <nil> <nil>
	// the number was taken before
	// the number is too far below the highest that was taken
}

func ExampleHistory() {
	var ours, theirs krbrelay.History
	for _, history := range []*krbrelay.History{&ours, &theirs} {
		if err := history.Add([]byte("a frame, whose last 12 bytes are its code")); err != nil {
			panic(err)
		}
	}
	fmt.Println(ours == theirs, ours == krbrelay.History{})
	// Output: true false
}
