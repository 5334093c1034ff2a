//go:build !linux || !amd64 || !cgo

package hpkebatch

// The compiler tells this name to whoever builds the package elsewhere.
var _ = hpkebatch_is_for_linux_on_amd64_and_needs_cgo_and_a_C_compiler
