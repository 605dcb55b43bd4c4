//go:build cgo && krbrelay_system

package krbrelay

// The installed library.

// #cgo pkg-config: krbrelay
import "C"
