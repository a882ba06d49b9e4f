#!/usr/bin/env bash
# Tests the library for C: its header against its source; calls with answers from the formats, what nests as deep as it may on
# a small stack, sixty-four threads over one store, and each request for memory failed in turn, with nothing left; the
# worked examples of jobs; and the examples in C, Rust and Python, where their compilers are, and the program of
# docs/EMBEDDING.md over an installed library. Ends with status 1 at the first that is wrong.
#
# usage: tests/embed.sh [--only PART] [LIBRARY.a | --of-gate]
#   a library that is built, or else tools/library makes it, in the gate's way or its own
#   PART is calls, threads, memory, cases, c, python, rust or installed, or stack, which prints how much stack the calls take
#   whose input may nest; with a PART the status is 2 where it couldn't be run
set -Eeuo pipefail
export LC_ALL=C PYTHONDONTWRITEBYTECODE=1

top=$(cd "$(dirname "${BASH_SOURCE[0]}")/.." && pwd)
scratch=$(mktemp -d)
trap 'cd / && rm -rf "$scratch"' EXIT
trap 'exit 1' HUP INT TERM PIPE
trap 'echo "tests/embed.sh: the command failed: $BASH_COMMAND" >&2' ERR

fail() {
  echo "tests/embed.sh: FAILED: $1" >&2
  exit 1
}

only=
if [ "${1-}" = --only ]; then
  only=$2
  shift 2
else
  "$top/tests/embed/header.py"
fi
cd "$scratch"
printf '#include <pthread.h>\n#include <stdio.h>\nint main(void) { return 0; }\n' >plain.c
compiler=
for it in cc gcc clang; do
  if "$it" plain.c -lpthread -o plain 2>plain.log; then
    compiler=$it
    break
  fi
done
if [ -z "$compiler" ]; then
  [ -z "$only" ] || exit 2
  echo 'tests/embed.sh: no compiler makes a program of C here: only the header was compared'
  exit 0
fi
case ${1-} in
  *.a) library=$(cd "$OLDPWD" && readlink -f "$1") ;;
  *)
    "$top/tools/library" "$@"
    library=$top/build/lib/libix_export.a
    ;;
esac

# Leaks are looked for where valgrind is.
clean() {
  if command -v valgrind >/dev/null; then
    valgrind --quiet --leak-check=full --show-leak-kinds=all --error-exitcode=9 "$@"
  else
    "$@"
  fi
}

# build SOURCE PROGRAM OPTION..
build() {
  "$compiler" -std=c11 -D_POSIX_C_SOURCE=200809L -Wall -Wextra -Werror -O1 -I"$top/include" "${@:3}" "$1" "$library" -lpthread -o "$2" ||
    exit 2
}

# The archives of the example in a folder.
has_archives() {
  local file
  for file in "$top"/examples/expected/*.car; do
    cmp "$file" "$1/${file##*/}" || fail "$1/${file##*/}"
  done
}

# Makes a shared object of the library, which Python loads.
share() {
  "$compiler" -shared -Wl,--whole-archive "$library" -Wl,--no-whole-archive -o libix_export.so || exit 2
}

# run_calls PART: one part of the calls, or all.
run_calls() {
  build "$top/tests/embed/calls.c" calls -Wl,--wrap=malloc,--wrap=realloc,--wrap=free
  told=$(clean ./calls "$@") || fail "calls $*"
  ran="$ran, calls${told:+, $told}"
}

# Not under valgrind, which doesn't leave stacks as they were painted.
run_stack() {
  build "$top/tests/embed/calls.c" calls -Wl,--wrap=malloc,--wrap=realloc,--wrap=free
  ./calls stack || fail 'calls stack'
  ran="$ran, stack"
}

run_c() {
  build "$top/examples/c/export.c" export
  mkdir out
  clean ./export "$top/examples/library.car" "$top/examples/library.jobs" out >report || fail 'the example in C'
  cmp report report.wanted || fail 'the report of the example in C'
  has_archives out
  mkdir of-two
  clean ./export "$top/examples/expected/front.car" "$top/examples/library.car" "$top/examples/library.jobs" of-two >report ||
    fail 'the example in C, over two files'
  cmp report report.wanted || fail 'the report of the example in C, over two files'
  has_archives of-two
  ran="$ran, the example in C"
}

run_cases() {
  share
  told=$("$top/tests/embed/cases.py" ./libix_export.so) || fail 'the cases'
  ran="$ran, $told"
}

# The example in Python, over a job file and its report. Each archive's line goes into `sums`.
run_python_on() {
  python3 "$top/examples/python/export.py" ./libix_export.so "$top/examples/library.car" "$1" >told || fail 'the example in Python'
  grep -v '^  archive ' told | cmp - "$2" || fail "the report of the example in Python, over $1"
  sed -n 's/^  archive //p' told | sort >sums
}

run_python() {
  share
  # A job may be called like the line with the sums.
  sed 's/^front /total /' "$top/examples/library.jobs" >total.jobs
  sed 's/^front /total /' report.wanted >total.wanted
  run_python_on total.jobs total.wanted
  run_python_on "$top/examples/library.jobs" report.wanted
  sha256sum "$top"/examples/expected/*.car | cut -d' ' -f1 | sort | cmp - sums || fail 'the archives of the example in Python'
  run_differences
  ran="$ran, in Python"
}

# The example in Python with a base: each archive is the whole without the sections of the base's file, and the whole is restored.
run_differences() {
  local base=$top/examples/expected/front.car file
  python3 "$top/examples/python/export.py" ./libix_export.so "$top/examples/library.car" "$top/examples/library.jobs" "$base" >told ||
    fail 'the differences of the example in Python'
  sed -n 's/^  restored //p' told | sort | cmp - sums || fail 'what the example in Python restores'
  for file in "$top"/examples/expected/*.car; do
    parts_of "$file" without "$base" | sha256sum | cut -d' ' -f1
  done | sort >wanted
  sed -n 's/^  archive //p' told | sort | cmp - wanted || fail 'the differences of the example in Python'
}

run_rust() {
  mkdir examples
  tar -c -C "$top/examples" --exclude=target . | tar -x -C examples
  (cd examples/rust && export IX_EXPORT_LIB=${library%/*} && cargo test --offline --quiet --no-run >"$scratch/cargo" 2>&1) ||
    { cat cargo >&2; exit 2; }
  (cd examples/rust && export IX_EXPORT_LIB=${library%/*} && cargo test --offline --quiet >"$scratch/cargo" 2>&1) ||
    { cat cargo >&2; fail 'the example in Rust'; }
  ran="$ran, in Rust"
}

# The whole program of docs/EMBEDDING.md, made by its command over the library that `make install-lib` installed: the archive
# of a root's block alone is the front of the archive of everything below it.
run_installed() {
  local prefix=$scratch/prefix root
  make -s -C "$top" install-lib LIBRARY="$library" PREFIX="$prefix" || exit 2
  sed -n '/^```c$/,/^```$/p' "$top/docs/EMBEDDING.md" | sed '1d; /^```$/,$d' >front.c
  PKG_CONFIG_PATH=$prefix/lib/pkgconfig "$compiler" front.c \
    $(PKG_CONFIG_PATH=$prefix/lib/pkgconfig pkg-config --cflags --libs ix_export) -o front || exit 2
  root=$(sed -n 's/^whole \([^ ]*\) .*/\1/p' "$top/examples/library.jobs")
  clean ./front "$root" <"$top/examples/library.car" >front.car || fail 'the program of docs/EMBEDDING.md'
  parts_of "$top/examples/expected/whole.car" front | cmp - front.car || fail 'the archive of docs/EMBEDDING.md'
  ran="$ran, the program of docs/EMBEDDING.md"
}

# parts_of ARCHIVE front: its header and its first section, each after its length.
# parts_of ARCHIVE without BASE: its header, and its sections that the base doesn't have.
parts_of() {
  python3 - "$@" <<'PY'
import sys


def parts(path):
    data, at = open(path, "rb").read(), 0
    while at < len(data):
        start, length, shift = at, 0, 0
        while True:
            byte = data[at]
            length |= (byte & 127) << shift
            at, shift = at + 1, shift + 7
            if byte < 128:
                break
        at += length
        yield data[start:at]


header, *sections = parts(sys.argv[1])
had = set(parts(sys.argv[3])) if sys.argv[2] == "without" else sections[1:]
sys.stdout.buffer.write(header + b"".join(it for it in sections if it not in had))
PY
}

sed '/^total /d' "$top/examples/expected/report.txt" >report.wanted
ran=
if [ -n "$only" ]; then
  case $only in
    calls | threads | memory) run_calls "$only" ;;
    stack | cases | c | python | rust | installed) "run_$only" ;;
    *) exit 2 ;;
  esac
else
  run_calls
  ! command -v python3 >/dev/null || run_cases
  run_c
  ! command -v python3 >/dev/null || run_python
  ! cargo --version >/dev/null 2>&1 || run_rust
  ! { pkg-config --version && python3 --version && make --version; } >/dev/null 2>&1 || run_installed
fi
echo "tests/embed.sh: passed: ${ran#, }"
