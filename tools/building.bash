# Functions of ./confscript, ./library and the other scripts at the top: which crates crates.txt lists, which of them are
# built, how the toolchain's compiler proves and builds one, and where the text is, the assembly that is compiled of what
# was proved. A script that sources this file has the top of the repository in $top.

# needs_rt SCRIPT: fails with a message of one line if the toolchain is missing.
needs_rt() {
  command -v rt >/dev/null && return
  echo "$1: the toolchain Rattle is missing (no rt on the path); 'How to get it' in README.md says what it is, and what needs no toolchain" >&2
  return 1
}

# libraries_of CRATE: the libraries that crates.txt lists for a crate: crates of this repository, and of the toolchain.
libraries_of() {
  sed -n "s/^$1\( staticlib\)\{0,1\}: *//p" "$top/crates.txt"
}

# is_own LIBRARY: whether a library is a crate of this repository.
is_own() {
  grep -q "^$1[: ]" "$top/crates.txt"
}

# crates_below CRATE: the crates of this repository that a crate depends on, each once and after those that it depends on
# itself.
crates_below() {
  awk -v crate="$1" '
    { name = $1; sub(/:.*/, "", name); libraries = $0; sub(/^[^:]*:/, "", libraries); below[name] = libraries }
    function visit(name,    found, count, i) {
      count = split(below[name], found)
      for (i = 1; i <= count; i++) if (found[i] in below && !(found[i] in seen)) {
        seen[found[i]]
        visit(found[i])
        print found[i]
      }
    }
    END { visit(crate) }' "$top/crates.txt"
}

# rlib_of CRATE: the path of the library that is built of a crate.
rlib_of() {
  echo "$top/crates/$1/out/rlib/$1.rlib"
}

# is_built CRATE: whether a crate was proved and built after its sources were written, and after the crates that it
# depends on were built. The time is that of the library's folder, since files that `rt ci` restored may be older.
is_built() {
  local built sources library
  built=$(rlib_of "$1")
  [ -e "$built/format" ] || return 1
  sources=("$top/crates.txt" "$top/crates/$1"/{src,specs,proofs})
  for library in $(crates_below "$1"); do
    [ -e "$(rlib_of "$library")/format" ] || return 1
    sources+=("$top/crates/$library"/{src,specs,proofs} "$(rlib_of "$library")")
  done
  [ -z "$(find "${sources[@]}" -newer "$built" -print -quit 2>/dev/null)" ]
}

# jobs_for_machine [JOBS]: how many jobs a proof may use: one for each processor, but no more than free memory allows,
# with 5 GB for the first job and 2 GB for each other one. At least one; but beside a proof that uses JOBS, for which 2 GB
# each are set aside, at most half as many as that one, and 0 if too little memory is left.
jobs_for_machine() {
  local beside=${1:-0} memory most
  memory=$(awk '$1 == "MemAvailable:" { print int($2 / 1000) }' /proc/meminfo)
  memory=$((memory - 2000 * beside))
  most=$((memory < 5000 ? 0 : (memory - 5000) / 2000 + 1))
  if [ "$beside" -gt 0 ]; then
    echo $((most < (beside + 1) / 2 ? most : (beside + 1) / 2))
    return
  fi
  [ "$most" -ge 1 ] || most=1
  echo $(($(nproc) < most ? $(nproc) : most))
}

# rattle_build JOBS CRATE ROOT ARGUMENTS..: proves a crate from nothing, and builds it. The crates that it depends on
# have to be built.
rattle_build() {
  local jobs=$1 crate=$2 root=$3 kit library words
  shift 3
  kit=$(dirname "$(rt doc)")
  words=(--crate-name "$crate" --extern "std=$kit/rlibs/std.rlib" -L "dependency=$kit/rlibs")
  for library in $(libraries_of "$crate"); do
    if is_own "$library"; then
      words+=(--extern "$library=$(rlib_of "$library")")
    else
      words+=(--extern "$library=$kit/rlibs/$library.rlib")
    fi
  done
  for library in $(crates_below "$crate"); do
    words+=(-L "dependency=$(dirname "$(rlib_of "$library")")")
  done
  words+=(--antt-project "$kit/rattle/logic/antt-project.json" --logic-built "$kit/logic_built" --jobs "$jobs")
  mkdir -p "$top/crates/$crate/out" || return
  (cd "$top/crates/$crate" && exec "$kit/bin/rattle" build "$root" "${words[@]}" "$@")
}

# build_library JOBS CRATE: proves a crate and builds its library, with its statements for the crates above, unless that
# is up to date.
build_library() {
  is_built "$2" && return
  rm -rf "$top/crates/$2/out/rlib"
  mkdir -p "$top/crates/$2/out/rlib" || return
  rattle_build "$1" "$2" src/lib.rt --links "$2=" --statements -o "$(rlib_of "$2")"
}

# report LOG CRATE STATUS SECONDS LEFT: prints that a crate is proved, and how many are left, or that it could not be.
report() {
  if [ "$3" -ne 0 ]; then
    echo "confscript: $2 could not be built; what the prover said is in $1" >&2
    return 1
  fi
  echo "confscript: $2 is proved ($4 s), $5 left" >&2
}

# logged LOGS CRATE COMMAND..: runs a command that proves the last crate. The prover's output goes to a log in the folder
# LOGS.
logged() {
  local log=$1/$2.log crate=$2 began=$SECONDS status=0
  shift 2
  "$@" </dev/null >"$log" 2>&1 || status=$?
  report "$log" "$crate" "$status" $((SECONDS - began)) 0
}

# The proofs that run, by the ids of their processes. Each has a session of its own, so that all its processes can be
# ended together.
declare -A proofs

# end_proofs: ends all proofs that run.
end_proofs() {
  local proof
  for proof in "${!proofs[@]}"; do
    kill -- "-$proof" 2>/dev/null
  done
}

# begin_proof LOGS CRATE JOBS: proves a crate and builds its library in the background. Its process is $!.
begin_proof() {
  setsid bash -c 'top=$1; . "$top/tools/building.bash"; build_library "$2" "$3"' - "$top" "$3" "$2" </dev/null >"$1/$2.log" 2>&1 &
  proofs[$!]=$2
}

# next_proof LEFT..: the first of these crates that depends on none of the others and is not being proved.
next_proof() {
  local crate library
  for crate; do
    [[ " ${proofs[*]} " != *" $crate "* ]] || continue
    for library in $(crates_below "$crate"); do
      [[ " $* " != *" $library "* ]] || continue 2
    done
    echo "$crate"
    return
  done
}

# prove_below LOGS CRATE JOBS: proves all crates that a crate depends on and that are not up to date, each after those
# that it depends on itself. Prints a line for each. A proof begins and ends on one processor, so if there is memory,
# another one runs beside it, with fewer jobs. It has no lower priority: a later crate may wait for it.
prove_below() {
  local logs=$1 jobs=$3 jobs_beside crate left=() first='' beside='' ended status
  local -A began
  jobs_beside=$(jobs_for_machine "$jobs")
  for crate in $(crates_below "$2"); do
    is_built "$crate" || left+=("$crate")
  done
  trap end_proofs EXIT
  while [ "${#left[@]}" -gt 0 ]; do
    crate=$(next_proof "${left[@]}")
    if [ -n "$crate" ] && [ -z "$first" ]; then
      begin_proof "$logs" "$crate" "$jobs"
      first=$! began[$crate]=$SECONDS
      continue
    fi
    if [ -n "$crate" ] && [ -z "$beside" ] && [ "$jobs_beside" -gt 0 ]; then
      begin_proof "$logs" "$crate" "$jobs_beside"
      beside=$! began[$crate]=$SECONDS
      continue
    fi
    status=0
    wait -n -p ended "${!proofs[@]}" || status=$?
    crate=${proofs[$ended]}
    unset "proofs[$ended]"
    [ "$ended" != "$first" ] || first=
    [ "$ended" != "$beside" ] || beside=
    mapfile -t left < <(printf '%s\n' "${left[@]}" | grep -vx "$crate")
    report "$logs/$crate.log" "$crate" "$status" $((SECONDS - began[$crate])) $((${#left[@]} + 1)) || return
  done
}

# sum_of_sources: the checksum of the sources: src, specs and proofs of all crates, and crates.txt.
sum_of_sources() {
  (cd "$top" && find crates.txt crates/*/{src,specs,proofs} -type f -print0 | LC_ALL=C sort -z | xargs -0 sha256sum | sha256sum | cut -c1-64)
}

# crate_of WHAT: the crate of the program or of the library.
crate_of() {
  [ "$1" = program ] && echo confscript || echo confscript_c
}

# compile_text JOBS WHAT PROCESSOR TEXT: proves the crate of the program or of the library, and writes the assembly that the
# toolchain's clang makes of what was proved. The crates below have to be built. What was checked of the crate for one
# processor holds for the other one too, so that only the code is made again.
compile_text() (
  jobs=$1 what=$2 processor=$3 text=$4
  crate=$(crate_of "$what")
  kit=$(dirname "$(rt doc)")
  room=$(mktemp -d) || exit
  trap 'rm -rf "$room"' EXIT
  # The folder of a toolchain whose clang writes the assembly beside itself.
  mkdir "$room/bin" && ln -s "$kit/toolchain" "$room/real" && ln -s real/lib "$room/lib" &&
    ln -s ../real/bin/{clang,rattle-x64} "$room/bin" && mv "$room/bin/clang" "$room/bin/ld.lld" &&
    cp -P "$room/bin/ld.lld" "$room/bin/llvm-ar" && cp "$top/tools/clang_to_text" "$room/bin/clang" || exit
  target=x86_64-unknown-linux-gnu
  [ "$processor" = x86_64 ] || target=aarch64-unknown-linux-gnu
  # The log lists the C functions whose contracts the proofs rest on, with which tests/documents compares docs/TRUST.md.
  words=(--target "$target" --toolchain "$room" --backend llvm --list-axioms -o "$room/object")
  # What `rt check` keeps, if it was used in this clone.
  checked=$top/crates/$crate/out/incremental
  [ -d "$checked" ] || checked=$top/crates/$crate/out/checked
  words+=(--incremental "$checked")
  if [ "$what" = program ]; then
    rattle_build "$jobs" "$crate" src/main.rt --links "$crate=" "${words[@]}" && make_portable "$room"
  else
    rattle_build "$jobs" "$crate" src/lib.rt --crate-type staticlib "${words[@]}" && make_portable "$room" && complete_library "$room" "$target"
  fi && printf '\t.section\t.note.GNU-stack,"",@progbits\n' >>"$room/text.s" && mv "$room/text.s" "$text"
)

# make_portable ROOM: makes the text one that assemblers since binutils 2.35 take. They do not know the directives that say
# for arm64 what the property note says too, and take no name with other characters than letters, digits and `_.$`, which
# stands in quotes: `std_alloc::vec::Vec::grow::<#afb6885be5c9>` becomes `std_alloc.vec.Vec.grow.afb6885be5c9`. It fails if
# two names would become one. The section that asks for no executable stack goes: each text gets one at its end, as
# a C compiler writes it.
make_portable() {
  awk -F '"' -v OFS='' '
    function plain(name,    made) {
      made = name
      gsub(/::/, ".", made)
      gsub(/[<>#]/, "", made)
      gsub(/[^A-Za-z0-9_.$]/, "_", made)
      if (made in names && names[made] != name) { print "two names are " made > "/dev/stderr"; failed = 1; exit }
      names[made] = name
      return made
    }
    /^\t\.aeabi_/ || /^\t\.section\t"\.note\.GNU-stack"/ { next }
    NF > 1 && !/^\t\.(asci[iz]|string|file|ident)\t/ {
      for (i = 2; i <= NF; i += 2) $i = $i ~ /[^A-Za-z0-9_.$-]/ ? plain($i) : "\"" $i "\""
    }
    { print }
    END { exit failed }' "$1/text.s" >"$1/portable.s" && mv "$1/portable.s" "$1/text.s"
}

# assembly_of ROOM TARGET FILE: the assembly that the toolchain's clang makes of a file of compiled/, with labels of its own.
# The property note is that of the proved code, for which clang_to_text has asked too.
assembly_of() {
  local protection=-fcf-protection=full
  [[ $2 == x86_64* ]] || protection=-mbranch-protection=standard
  "$1/real/bin/clang" --target="$2" --no-default-config -std=c11 -ffreestanding -O2 -fPIC -ffunction-sections \
    -fasynchronous-unwind-tables "$protection" -fno-ident -fno-addrsig -fno-verbose-asm -S "$top/compiled/$3.c" -o "$1/$3.s" &&
    sed '/^\t\.section\t\.note\.gnu\.property/,/^\t\.text$/d; /^\t\.\(file\|aeabi_[a-z]*\)\t/d; /^\t\.section\t"\.note\.GNU-stack"/d' "$1/$3.s" | sed "s/\.L/.L$3_/g"
}

# complete_library ROOM TARGET: adds to the text of the library what it takes from compiled/system.c, as functions that are
# not seen from outside: each library of the toolchain has functions of these names. Then what compiled/calls.c has: the
# calls that are seen from outside, in front of the proved ones, which are named `proved_..` for that. The calls are not seen
# from outside either where the text is assembled with the symbol confscript_is_private, as the package for Go does: two
# packages of Go with the text may be in one program. All labels get names that LLVM gives to none: with Rust's link-time
# optimization LLVM assembles the text in one module with code of its own.
complete_library() {
  local system calls names
  system=$(assembly_of "$1" "$2" system | sed '/^\t\.globl\t/d') && calls=$(assembly_of "$1" "$2" calls) || return
  names=$(sed -n 's/^\t\.globl\t\(confscript_.*\)$/\1/p' <<<"$calls" | paste -sd '|')
  sed -i -E -e '/^\t\.file\t/d' -e '/^\t\.asci[iz]\t/!s/\.L/.Lcs_/g' \
    -e "/^\t\.globl\t($names)\$/d; s/\b($names)\b/proved_\1/g" "$1/text.s" &&
    printf '%s\n%s\n' "$system" "$calls" >>"$1/text.s" &&
    sed -i -E 's/^\t\.globl\tconfscript_.*/.ifndef confscript_is_private\n&\n.endif/' "$1/text.s"
}

# needs_proof WHAT: fails with a message of one line if the sources cannot be proved.
needs_proof() {
  if ! command -v rt >/dev/null; then
    echo "confscript: the sources are not those that compiled/ is of, and the toolchain Rattle is missing (no rt on the path), which proves and compiles them; 'How to get it' in README.md says what it is" >&2
    return 1
  fi
  echo "confscript: the sources are not those that compiled/ is of, so the $1 is proved and compiled first, for which docs/PERFORMANCE.md has the minutes; './try' runs the program without proof" >&2
}

# prove_all_below JOBS CRATE: proves and builds all crates below a crate. If `rt check` was used in this clone, what it
# kept makes that short.
prove_all_below() {
  local jobs=$1 crate=$2 logs=$top/confscript.d last
  last=$(crates_below "$crate" | tail -n 1)
  mkdir -p "$logs"
  if [ -d "$top/crates/$last/out/incremental" ]; then
    (cd "$top/crates/$crate" && logged "$logs" "$crate" rt check)
  else
    prove_below "$logs" "$crate" "$jobs"
  fi
}

# prove_text JOBS WHAT PROCESSOR TEXT: proves the program or the library and all crates below, and writes its text.
prove_text() {
  local crate
  crate=$(crate_of "$2")
  prove_all_below "$1" "$crate" && logged "$top/confscript.d" "$crate" compile_text "$@"
}

# find_text WHAT: sets $text to the text of the program or the library for $processor, compiled of the sources as they are,
# and $of to the line of SOURCES for it. That is the text in compiled/, or if the sources are others, one in out/compiled,
# which is proved and compiled unless it is there already.
find_text() {
  local sum
  sum=$(sum_of_sources)
  text=$top/compiled/$1_$processor.s
  of=$(cat "$top/compiled/SOURCES" 2>/dev/null)
  [ ! -e "$text" ] || [ "${of%% *}" != "$sum" ] || return 0
  text=$top/out/compiled/$1_$processor.s
  of=$(cat "$text.of" 2>/dev/null)
  [ "${of%% *}" != "$sum" ] || return 0
  needs_proof "$1" || return
  of="$sum $(rt version)"
  mkdir -p "${text%/*}" && rm -f "$text.of" && prove_text "$(jobs_for_machine)" "$1" "$processor" "$text" || return
  if [ "$(sum_of_sources)" != "$sum" ]; then
    echo 'confscript: the sources were changed while they were proved' >&2
    return 1
  fi
  echo "$of" >"$text.of"
}
