#!/usr/bin/env bash
# Runs the built program with each of its memory requests failing in turn, and with each set of its
# thread starts failing, also where one check always runs out of memory; and a test of exports with each
# set of its thread starts failing. No run may end by a signal, and each archive is the wanted one where its job
# is reported as done, and else a prefix of it. Ends with status 1 at the first run that is wrong.
# The library that makes them fail is built by the toolchain's own compiler; without one this says so and ends well.
set -Eeuo pipefail
export LC_ALL=C

top=$(cd "$(dirname "${BASH_SOURCE[0]}")/.." && pwd)
scratch=$(mktemp -d)
trap 'cd / && rm -rf "$scratch"' EXIT
trap 'exit 1' HUP INT TERM PIPE
trap 'echo "tests/memory.sh: the command failed: $BASH_COMMAND" >&2' ERR

library=$scratch/refuse.so
compiler=$(dirname "$(readlink -f "$(command -v rt)")")/../toolchain/bin/clang
if ! "$compiler" -shared -fPIC -O1 -nostdlib -fuse-ld=lld "$top/tests/memory/refuse.c" -o "$library"; then
  echo "tests/memory.sh: no compiler makes the library that refuses: no run"
  exit 0
fi

# Builds the program where it isn't built.
program=$("$top/ix_export" --where)
title='before the first run'
source "$top/tests/program/cases.sh"
source "$top/tests/program/blocks.sh"
runs=0
# The request that fails in every run, as START:NUMBER for the NUMBERth of the thread of that start, and
# how jobs end where every kind of thread was started.
held=
ended='done|limit'
cd "$scratch"

fail() {
  echo "tests/memory.sh: FAILED: $title: $1" >&2
  echo "status $status; standard output and error were:" >&2
  cat stdout stderr >&2
  exit 1
}

# run REQUEST THREADS WORD..: one run in an empty output folder.
run() {
  title="request $1, threads $2 and '$held' refused of ${*:3}"
  runs=$((runs + 1))
  rm -rf out counts
  mkdir out
  status=0
  timeout 60 env REFUSE_REQUEST="$1" REFUSE_THREADS="$2" ${held:+"REFUSE_OF=$held"} REFUSE_COUNTS="$scratch/counts" \
    LD_PRELOAD="$library" "$program" "${@:3}" <input >stdout 2>stderr || status=$?
}

# begins FILE WHOLE: the file is the whole one or a beginning of it.
begins() {
  local said
  said=$(cmp "$1" "$2" 2>&1) || [[ $said == *"EOF on $1"* ]] || fail "$1 is no beginning of the archive"
}

# How the job ended by the report, if it says so.
told() {
  sed -n "s/^$1 \([a-z]*\) .*/\1/p" stdout
}

judge_root() {
  begins stdout root.wanted
  case $status in
    0) cmp -s stdout root.wanted || fail 'not the whole archive' ;;
    2) ;;
    *) fail 'another status' ;;
  esac
}

# The command `get` to a file: its name is that of a whole archive alone.
judge_get() {
  case $status in
    0 | 2 | 3 | 4) ;;
    *) fail 'another status' ;;
  esac
  [ ! -e out/a.car ] || cmp -s out/a.car "$wanted" || fail 'an archive that is not whole has its name'
  [ ! -e out/a.car.part ] || begins out/a.car.part "$wanted"
  [ "$status" != 3 ] || cmp -s out/a.car "$wanted" || fail 'the archive has no name'
}

# The same with --paths: where the job is done, its report has all paths, or none, and then a line says so.
judge_paths() {
  judge_get
  if [ "$status" != 3 ] || cmp -s stderr paths.wanted; then return; fi
  { echo 'note: out of memory for the paths of skips' && sed 's/^\(  .*\) .*/\1/' paths.wanted; } | cmp -s - stderr || fail 'another report'
}

# The command `receive`, which accepts the archive.
judge_receive() {
  judge_get
  [ "$status" != 0 ] || cmp -s out/a.car "$wanted" || fail 'the archive has no name'
}

# The same with --paths: a path for each block that is absent, or none of them.
judge_received_paths() {
  judge_receive
  if [ "$status" != 0 ] || cmp -s stderr received.wanted; then return; fi
  { echo 'note: out of memory for the paths of skips' && sed '/^  /d' received.wanted; } | cmp -s - stderr || fail 'another report'
}

# The same to standard output.
judge_stream() {
  case $status in
    0 | 2 | 3 | 4) ;;
    *) fail 'another status' ;;
  esac
  begins stdout "$wanted"
  case $status in
    0 | 3) cmp -s stdout "$wanted" || fail 'the archive is not whole' ;;
  esac
}

judge_jobs() {
  local name file
  case $status in
    0 | 2 | 3 | 4) ;;
    *) fail 'another status' ;;
  esac
  for name in "${jobs[@]}"; do
    for file in "out/$name.car" "out/$name.car.part"; do
      [ ! -e "$file" ] || begins "$file" "$wanted/$name.car"
    done
    case $(told "$name") in
      done | limit) has_archive "$name" ;;
      memory | write | start) ;;
      '') [ "$status" = 2 ] || fail "$name isn't told" ;;
      *) fail 'a job ended in another way' ;;
    esac
  done
}

# The job's archive is whole, under its name, or where the run ended with status 2, since a file found no
# memory for its name, still under the name before.
has_archive() {
  cmp -s "out/$1.car" "$wanted/$1.car" && return
  [ "$status" = 2 ] && cmp -s "out/$1.car.part" "$wanted/$1.car" || fail "$1 isn't whole"
}

# each_request JUDGE WORD..: every request that a run makes fails once. How many there are depends
# on the schedule, so it goes on to the first number that no run reached, of five.
each_request() {
  local judge=$1 request=0 requests=0 begun
  shift
  for begun in 1 2 3 4 5; do
    run 0 0 "$@"
    "$judge"
    read -r begun _ <counts
    [ "$begun" -le "$requests" ] || requests=$begun
  done
  [ "$requests" -gt 0 ] || fail 'no request was counted'
  while [ "$request" -lt "$requests" ]; do
    request=$((request + 1))
    run "$request" 0 "$@"
    "$judge"
  done
}

# each_start THREADS: every set of thread starts fails, of so many walkers and as many verifiers. The
# verifiers are started first. Every job ends with start exactly where none of one kind was started.
each_start() {
  local all=$(((1 << $1) - 1)) set name
  for ((set = 0; set < 1 << 2 * $1; set++)); do
    run 0 "$set" "${words[@]}" --walkers "$1" --verifiers "$1" --prefetch off
    judge_jobs
    for name in "${jobs[@]}"; do
      if ((set >> $1 == all || (set & all) == all)); then
        [ "$(told "$name")" = start ] || fail "$name did not end with start"
      else
        [[ $(told "$name") == @($ended) ]] || fail "$name did not end as it should"
      fi
    done
  done
}

# Each of the first starts of a run that prefetches fails, and each two of them: of its threads, of verifiers or of walkers.
each_start_prefetched() {
  local first second
  for first in $(seq 0 9); do
    for second in $(seq "$first" 9); do
      run 0 $((1 << first | 1 << second)) "${words[@]}" --walkers 2 --verifiers 2 --prefetch on
      judge_jobs
    done
  done
}

# each_of FILE_OF_BLOCKS FILE_OF_JOBS WANTED JOB..: both for the jobs, whose archives lie in the folder WANTED.
each_of() {
  wanted=$3 jobs=("${@:4}")
  words=(jobs --blocks "$1" --jobs "$2" --out out)
  each_start 1
  each_start 2
  each_request judge_jobs "${words[@]}" --walkers 2 --verifiers 2 --prefetch off
  each_request judge_jobs "${words[@]}" --walkers 2 --verifiers 2 --prefetch on
  each_start_prefetched
}

: >input
each_of "$top/examples/library.car" "$top/examples/library.jobs" "$top/examples/expected" album first-three front parts whole

# A job file with a faulty line. The last requests are for its cause, but for those of the line that is printed. If one of them is
# refused, the error is the line's own all the same.
printf 'a zabc 1 a1612ea0\n' >faulty.jobs
words=(jobs --blocks "$top/examples/library.car" --jobs faulty.jobs --out out)
run 0 0 "${words[@]}"
expect_text 'the error' 'jobs: root at line 1' "$(sed -n 1p stderr)"
read -r last _ <counts
for ((request = last - 15; request < last - 3; request++)); do
  run "$request" 0 "${words[@]}"
  [ "$status" = 2 ] || fail 'another status'
  expect_text 'the error' 'jobs: root at line 1' "$(sed -n 1p stderr)"
done
# With --verbose the last request is for both lines together: without it the first is printed alone.
words+=(--verbose)
run 0 0 "${words[@]}"
expect_text 'the error' 'jobs: root at line 1' "$(sed -n 1p stderr)"
expect_text 'how many lines' 2 "$(wc -l <stderr)"
read -r last _ <counts
run "$last" 0 "${words[@]}"
[ "$status" = 2 ] || fail 'another status'
expect_text 'the error' 'jobs: root at line 1' "$(cat stderr)"

# The command `get` over the same blocks: what is skipped there is no root, so where it ends with 3 the archive is whole.
wanted=$top/examples/expected/whole.car
words=(get --blocks "$top/examples/library.car" --root bafyreigiavswv62tcfji62na4ecatawlzg33sy6uezl5lj3g56mxdhbnmq --walkers 1 --verifiers 1)
for ((set = 0; set < 4; set++)); do
  run 0 "$set" "${words[@]}" --out out/a.car
  judge_get
  [ "$status" = "$([ "$set" = 0 ] && echo 3 || echo 4)" ] || fail 'another status'
done
each_request judge_get "${words[@]}" --out out/a.car
each_request judge_get "${words[@]}" --prefetch on --out out/a.car
each_request judge_get "${words[@]}" --prefer-sound --out out/a.car
each_request judge_stream "${words[@]}"
each_request judge_stream "${words[@]}" --prefetch on
root=bafyreigiavswv62tcfji62na4ecatawlzg33sy6uezl5lj3g56mxdhbnmq
cat >paths.wanted <<END
get done visits=10 kept=10 sections=6 bytes=784
  5 damaged bafkreicvu5tadnk56ygcnwaxi64ebd6ceqz65dzz5jwguqrnc3hi2s2hxi $root/again/photos/2
  8 missing bafkreielrjfgq3l3wk4coa2j2jab5dmpujxdegfaqyymlnoyq4csmivkxe $root/notes/past/0
total jobs=1 done=1 skips=2
END
each_request judge_paths "${words[@]}" --paths --out out/a.car

# The command `receive` of that archive, also along a path.
words=(receive --root bafyreigiavswv62tcfji62na4ecatawlzg33sy6uezl5lj3g56mxdhbnmq --allow-missing raw "$wanted")
each_request judge_receive "${words[@]}" --out out/a.car
each_request judge_stream "${words[@]}" --out - --json
{
  echo 'receive done visits=10 kept=10 sections=6 bytes=784 absent=2'
  sed -n 's/ damaged / missing /; /^  /p' paths.wanted
  echo 'total jobs=1 done=1 skips=0'
} >received.wanted
each_request judge_received_paths "${words[@]}" --paths --out out/a.car

# The same of twenty leaves of 64 KiB, which several threads hash. Without some of its threads, or all, it accepts the archive
# too: the thread of the first start reads ahead, and the others hash.
leaf_list=94
for number in $(seq 20); do
  head -c 65536 /dev/zero | tr '\0' "\\$(printf %03o "$number")" >leaf
  leaf_cid=01551220$(sha256sum <leaf | cut -c 1-64)
  leaf_list+=$(link "$leaf_cid")
  bytes "$(varint $((36 + 65536)))" "$leaf_cid" | cat - leaf >>leaves
done
leaf_list_cid=$(cbor "$leaf_list")
bytes "$(header "$leaf_list_cid")" "$(section "$leaf_list_cid" "$leaf_list")" | cat - leaves >leaves.car
wanted=$scratch/leaves.car
words=(receive --root "$(text "$leaf_list_cid")" --out out/a.car "$wanted")
for set in 0 1 2 4 6 18446744073709551614 18446744073709551615; do
  run 0 "$set" "${words[@]}"
  judge_receive
  [ "$status" = 0 ] || fail 'another status'
done
each_request judge_receive "${words[@]}"

wanted=$scratch/path.car
"$program" get --blocks "$top/examples/library.car" --root bafyreigiavswv62tcfji62na4ecatawlzg33sy6uezl5lj3g56mxdhbnmq/album/photos/0 --out "$wanted" 2>stderr
each_request judge_receive receive --root bafyreigiavswv62tcfji62na4ecatawlzg33sy6uezl5lj3g56mxdhbnmq/album/photos/0 "$wanted" --out out/a.car
wanted=$top/examples/expected/whole.car
words=(get --blocks "$top/examples/library.car" --root bafyreigiavswv62tcfji62na4ecatawlzg33sy6uezl5lj3g56mxdhbnmq --walkers 1 --verifiers 1)

# The command `get` without the album, which the receiver has, and without that and a listed block: the root's is in both.
mkdir without
head -c 59 "$wanted" >without/album.car
tail -c +596 "$wanted" >>without/album.car
head -c 59 "$wanted" | cat - <(tail -c +729 "$wanted") >without/both.car
echo bafyreiba4bgu3t2znasd3gpb5ud3fojceen4lylgpjp644afvp2bi4qd7u >list.txt
words+=(--without "$top/examples/expected/album.car")
wanted=without/album.car
each_request judge_get "${words[@]}" --out out/a.car
each_request judge_stream "${words[@]}"
wanted=without/both.car
each_request judge_get "${words[@]}" --without-list list.txt --out out/a.car

# A list of two links, of which the first is to a damaged block: one job over it, and three.
write_blocks "$(section "$fork_cid" "$fork")" "$(section "$with_zero_cid" "$with_one")" "$one_blocks"
mkdir damaged
for name in a b c; do
  bytes "$(header "$fork_cid")" "$(section "$fork_cid" "$fork")" "$one_blocks" >"damaged/$name.car"
done
write_jobs "a $(text "$fork_cid") 100 $all"
each_of blocks.car jobs.txt damaged a
write_jobs {a,b,c}" $(text "$fork_cid") 100 $all"
each_of blocks.car jobs.txt damaged a b c

# Links to CIDs of more than 36 bytes: one that holds a list of a link and a number, one under SHA-512, and one that is skipped;
# and such a CID as a root.
held_cid=$(cbor_inline "$with_zero")
skipped_cid=01551e40$(digest_512 "$abc")
long=83$(link "$held_cid")$(link "$abc_512_cid")$(link "$skipped_cid")
long_cid=$(cbor "$long")
long_blocks=$(section "$long_cid" "$long")$(section "$abc_cid" "$abc")$(section "$abc_512_cid" "$abc")
write_blocks "$long_blocks"
mkdir long
bytes "$(header "$long_cid")" "$long_blocks" | tee long/a.car >long/b.car
bytes "$(header "$held_cid")" "$(section "$abc_cid" "$abc")" >long/held.car
write_jobs {a,b}" $(text "$long_cid") 100 $all" "held $(text "$held_cid") 100 $all"
each_of blocks.car jobs.txt long a b held

# A chain of three blocks. A verifier asks for no memory, so whichever request of its thread is to fail, the
# first that is started, every job is done.
inner=81$(link "$one_cid")
inner_cid=$(cbor "$inner")
outer=81$(link "$inner_cid")
outer_cid=$(cbor "$outer")
write_blocks "$(section "$outer_cid" "$outer")" "$(section "$inner_cid" "$inner")" "$one_blocks"
chain=$(section "$outer_cid" "$outer")$(section "$inner_cid" "$inner")$one_blocks
mkdir chain
bytes "$one_archive" >chain/first.car
bytes "$(header "$outer_cid")" "$chain" | tee chain/a.car >chain/b.car
write_jobs "first $one_job" {a,b}" $(text "$outer_cid") 100 $all"
wanted=chain jobs=(first a b)
words=(jobs --blocks blocks.car --jobs jobs.txt --out out)
for number in $(seq 20); do
  held=0:$number
  run 0 0 "${words[@]}" --walkers 1 --verifiers 1 --prefetch off
  judge_jobs
  expect_text 'the report' "first $one_line
a done visits=4 kept=4 sections=4 bytes=336
b done visits=4 kept=4 sections=4 bytes=336
total jobs=3 done=3 skips=0" "$(<stdout)"
done
held=
each_start 1
each_start 2
for threads in 1 2; do
  each_request judge_jobs "${words[@]}" --walkers "$threads" --verifiers "$threads" --prefetch off
  each_request judge_jobs "${words[@]}" --walkers "$threads" --verifiers "$threads" --prefetch on
done

# Which checks an export hands back, and that nothing was checked where its jobs end with start: the test that says so, with
# each set of starts of its three verifiers and two walkers refused. The gate leaves it where it built it.
tests=$top/crates/ix_export_tests/out/ix_export_tests_tests
if [ -x "$tests" ]; then
  for ((set = 0; set < 32; set++)); do
    title="threads $set refused of the test of starts"
    runs=$((runs + 1))
    status=0
    timeout 60 env REFUSE_THREADS="$set" LD_PRELOAD="$library" \
      "$tests" starts::checks_of_verifiers_that_started >stdout 2>stderr || status=$?
    [ "$status" = 0 ] || fail 'the test failed'
  done
else
  echo "tests/memory.sh: the tests of exports weren't built here: not run with starts refused"
fi

cp "$top/crates/ix_export/stdin" input
mapfile -t root <"$top/crates/ix_export/args"
cp "$top/crates/ix_export/stdout" root.wanted
each_request judge_root "${root[@]}"

echo "tests/memory.sh: $runs runs passed"
