#!/usr/bin/env bash
# Tries the mutants of the library for C: each file of tests/embed/wrong/ has calls in place of the library's own, which it may
# still call (`true_ix_export` for `ix_export`). Each part of tests/embed.sh that its line `rejected by: test` names has to fail
# with the library that is made so. A part of its line `not by` has to pass, and so have all with a library that changes
# nothing. It takes two minutes.
#
# usage: tests/embed/wrong.sh LIBRARY.a [NAME..]      all files, where none is named
# Ends with status 1 where a part passes that has to fail, or the other way round.
set -euo pipefail
top=$(cd "$(dirname "${BASH_SOURCE[0]}")/../.." && pwd)
library=$(readlink -f "$1")
shift
cd "$top/tests/embed/wrong"
if [ $# -eq 0 ]; then
  set -- $(ls | sed 's/\.c$//')
fi
work=$(mktemp -d)
trap 'rm -rf "$work"' EXIT

# make FOLDER SOURCE: the library with the calls of the source in place of its own.
make() {
  mkdir -p "$1"
  local renamed=() call
  for call in $(grep -o '\<\(true_\)\?ix_[a-z_]* *(' "$2" | tr -d ' (' | sed 's/^true_//' | sort -u); do
    ! grep -q "^\(uint32_t\|void\) $call(" "$2" || renamed+=(--redefine-sym "$call=true_$call")
  done
  objcopy "${renamed[@]}" "$library" "$1/libix_export.a"
  cc -std=c11 -D_POSIX_C_SOURCE=200809L -Wall -Wextra -Werror -O1 -fPIC -I"$top/include" -c "$2" -o "$1/wrong.o"
  ar qs "$1/libix_export.a" "$1/wrong.o"
}

missed=0
# expect STATUS NAME PART
expect() {
  local status=0
  timeout 300 "$top/tests/embed.sh" --only "$3" "$work/$2/libix_export.a" >"$work/log" 2>&1 </dev/null || status=$?
  if [ "$status" -eq "$1" ]; then
    echo "tests/embed/wrong.sh: $2: $3 $([ "$1" -eq 0 ] && echo passed || echo failed), as it has to"
  else
    echo "tests/embed/wrong.sh: $2: $3 ended with $status, AND NOT $1" >&2
    tail -n 20 "$work/log" >&2
    missed=1
  fi
}

{
  echo '#include <ix_export.h>'
  echo 'uint32_t true_ix_export(ix_handle *store, ix_handle *job, ix_handle *result);'
  echo 'uint32_t ix_export(ix_handle *store, ix_handle *job, ix_handle *result) { return true_ix_export(store, job, result); }'
} >"$work/nothing.c"
make "$work/nothing" "$work/nothing.c"
for part in calls threads memory cases c python rust installed; do
  expect 0 nothing "$part"
done
for name; do
  make "$work/$name" "$name.c"
  for part in $(sed -n 's|^/\* rejected by: test \(.*\) \*/$|\1|p' "$name.c"); do
    expect 1 "$name" "$part"
  done
  for part in $(sed -n 's|^/\* not by: \(.*\) \*/$|\1|p' "$name.c"); do
    expect 0 "$name" "$part"
  done
done
exit "$missed"
