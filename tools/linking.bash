# Functions of the scripts that make the program and the library of the compiled code, with a C compiler alone. A script
# that sources this file has the top of the repository in $top, and has sourced tools/building.bash.

# choose [PROCESSOR]: sets $processor, x86_64 or arm64, to the one that is named or that of this machine; $cc to the C
# compiler for it: $CC or cc, or Debian's cross compiler for another processor than the machine's (its packages are
# gcc-aarch64-linux-gnu and libc6-dev-arm64-cross); $out to the folder of what is made, that of the variable
# CONFSCRIPT_OUT if it is set; and $made to the folder below it of what is linked for this processor.
choose() {
  local own
  case "$(uname -sm)" in
    'Linux x86_64' | 'Linux amd64') own=x86_64 ;;
    'Linux aarch64' | 'Linux arm64') own=arm64 ;;
    *)
      echo "confscript: there is no compiled code for $(uname -sm), but for Linux on x86_64 and on aarch64 (arm64)" >&2
      return 1
      ;;
  esac
  processor=${1:-$own}
  out=${CONFSCRIPT_OUT:-$top/out}
  made=$out/$processor
  if [ "$processor" = "$own" ]; then
    read -ra cc <<<"${CC:-cc}"
  else
    cc=(aarch64-linux-gnu-gcc)
  fi
}

# needs_compiler: fails with a message of one line if the C compiler is missing.
needs_compiler() {
  if ! command -v "${cc[0]}" >/dev/null; then
    echo "confscript: the C compiler ${cc[0]} is missing for $processor; CC may name another one for this machine's processor" >&2
    return 1
  fi
}

# is_fresh FILE: whether a file was made by this compiler, and after the sources, the compiled code and these scripts were
# written.
is_fresh() {
  [ -e "$1" ] && [ "$(cat "$1.cc" 2>/dev/null)" = "${cc[*]}" ] || return 1
  local from=("$top"/{crates.txt,compiled} "$top"/crates/*/{src,specs,proofs} "$top"/bindings/go/*.h "$top"/tools/{building,linking}.bash)
  [ -z "$(find "${from[@]}" -newer "$1" -print -quit 2>/dev/null)" ]
}

# link_program TEXT: links the program.
link_program() {
  "${cc[@]}" -O2 -fPIC -DPROGRAM "$top/compiled/system.c" "$1" -pie -Wl,-z,relro,-z,now,-z,noexecstack -o "$made/confscript.linked" &&
    mv "$made/confscript.linked" "$made/confscript"
}

# soname: the name by which a program finds the shared library when it runs: libconfscript.so with the major and the minor
# version of the header, since before 1.0 a minor version may change the parameters of a call.
soname() {
  sed -n 's/^#define CONFSCRIPT_VERSION_M[A-Z]* \([0-9]*\)$/\1/p' "$top/include/confscript.h" | paste -sd. | sed 's/^/libconfscript.so./'
}

# link_library TEXT: links both libraries. The text of the library has all that it needs but the C library.
link_library() {
  local ar object=$made/libconfscript.o
  ar=$("${cc[@]}" -print-prog-name=ar) &&
    "${cc[@]}" -c "$1" -o "$object" &&
    "${cc[@]}" -shared -Wl,-soname,"$(soname)",--no-undefined,-z,relro,-z,now,-z,noexecstack "$object" -o "$made/libconfscript.so" &&
    rm -f "$made/libconfscript.a" &&
    "$ar" rcsD "$made/libconfscript.a" "$object"
}

# link_anew WHAT FILE: links the program or the library of the code that is compiled of the sources as they are, and stamps
# the file with the time before they were read. The file FILE.of has the line of SOURCES for it, and FILE.cc the compiler.
link_anew() {
  local text of begun=$made/$1.begun log=$made/$1.log
  needs_compiler && touch "$begun" && find_text "$1" || return
  if ! "link_$1" "$text" >"$log" 2>&1; then
    echo "confscript: ${cc[*]} could not link the $1; what it said is in $log" >&2
    return 1
  fi
  echo "$of" >"$2.of"
  echo "${cc[*]}" >"$2.cc"
  touch -r "$begun" "$2"
}

# link WHAT FILE: links the program or the library, whose file is FILE, unless that is up to date.
link() {
  local lock status=0
  ! is_fresh "$2" || return 0
  # One build at a time: a second run waits for the lock, and then finds the file.
  if ! mkdir -p "$made" 2>/dev/null || ! [ -w "$made" ] || ! [ -w "$out" ]; then
    echo "confscript: $made cannot be written; CONFSCRIPT_OUT may name another folder for what is linked" >&2
    return 1
  fi
  exec {lock}>"$out/lock" && flock "$lock" || return
  is_fresh "$2" || link_anew "$1" "$2" || status=$?
  exec {lock}>&-
  return "$status"
}
