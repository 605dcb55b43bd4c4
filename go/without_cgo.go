//go:build !cgo

package krbrelay

// This package is C and assembly: without cgo there is nothing to build.
const _ = krbrelay_needs_cgo_that_is_CGO_ENABLED_1_and_a_C_compiler_for_the_target
