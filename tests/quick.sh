#!/usr/bin/env bash
# Tests the program as ./ix_export finds it, with no proof: how it is found, its words, its cases on files with the recipes of
# docs/SELECTORS.md, with prefetching and without, random jobs at every arrival and with --once, differences from random bases,
# blocks as DAG-JSON, paths through random graphs, the paths of skips, streams that are received, an AT Protocol repository, and
# hostile input. As many suites run side by side as there are cores, those that take longest first, and what one prints is printed
# when it ends. It takes about four minutes on four cores. Ends with status 1 if a suite fails, once all have run.
set -euo pipefail
cd "$(dirname "${BASH_SOURCE[0]}")/.."

# Runs a suite, and prints what it has printed, while no other one prints.
run_suite() {
  local said end=passed status=0
  said=$("$@" 2>&1) || status=$?
  [ "$status" -eq 0 ] || end="FAILED: status $status"
  exec 9>"$lock"
  flock 9
  printf '%s\n' ${said:+"$said"} "tests/quick.sh: $*: $end, after $SECONDS s"
  [ "$status" -eq 0 ]
}
export -f run_suite
lock=$(mktemp)
export lock
trap 'rm -f "$lock"' EXIT

suites=(
  tests/hostile.py
  tests/program.sh
  'tests/program.sh --prefetch on'
  'tests/program.sh --prefetch off'
  tests/skips.py
  tests/receive.py
  tests/paths.py
  tests/differences.py
  tests/door.sh
  tests/once.py
  tests/at_repository.py
  tests/show.py
  'tests/kill_jobs.py --runs 10'
  tests/options.sh
)
# The program is built where it isn't, before the first suite asks for it.
./ix_export --where >/dev/null
TIMEFORMAT="tests/quick.sh: ${#suites[@]} suites in %0R s, %0U + %0S CPU seconds"
time printf '%s\n' "${suites[@]}" | xargs -P "$(nproc)" -I {} bash -c 'run_suite {}' || exit 1
