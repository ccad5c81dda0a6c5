//go:build !confscript_flags && !confscript_pkg_config && !(linux && (amd64 || arm64))

package confscript

// For another system or processor this package has no compiled code, so it ends the build with this name.
var _ = confscript_has_compiled_code_for_linux_on_amd64_and_arm64_alone
