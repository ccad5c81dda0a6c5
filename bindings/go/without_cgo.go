//go:build !cgo && (confscript_flags || confscript_pkg_config || (linux && (amd64 || arm64)))

package confscript

// The library is called from C, so without cgo the package ends the build with this name.
var _ = confscript_needs_cgo_so_set_CGO_ENABLED_to_1_and_have_a_C_compiler
