//go:build cgo && !krbrelay_system

package krbrelay

// The library is compiled in this package, of the assembly and the C that go/test packs.

// #cgo CFLAGS: -std=gnu11 -O2 -fstack-protector-strong -D_FORTIFY_SOURCE=2 -I${SRCDIR} -DKRBRELAY_INSIDE
import "C"
