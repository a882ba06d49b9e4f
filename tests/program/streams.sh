# Standard input and output that can't be read or written, and archives that can't be.

begin 'root: standard input is closed'
run root --cid "$abc_text" <&-
refused 'cannot read -'

begin 'root: standard input is a folder'
run root --cid "$abc_text" <.
refused 'cannot read -'

begin 'root: the text comes before standard input'
run root --cid zabc <&-
refused 'root: multibase'

begin 'root: standard input is too large'
truncate -s $((greatest + 1)) input
run root --cid "$abc_text" <input
refused 'too large -'

begin 'root: standard output is full'
run_bare root --cid "$abc_text" <"$top/examples/abc.car.hex" >/dev/full 2>"$scratch/stderr"
refused 'cannot write -'

begin 'root: standard output is closed'
run_bare root --cid "$abc_text" <"$top/examples/abc.car.hex" >&- 2>"$scratch/stderr"
refused 'cannot write -'

# Two jobs over the list of one link, with standard output and error as the caller has them.
run_two_jobs() {
  write_blocks "$one_blocks"
  write_jobs "a $one_job" "b $one_job"
  run_bare jobs --blocks blocks.car --jobs jobs.txt --out out
}

# The archives of the two jobs are whole.
expect_two_archives() {
  expect_folder out a.car b.car
  expect_bytes out/a.car "$one_archive"
  expect_bytes out/b.car "$one_archive"
}

begin 'jobs: standard input is closed'
run_two_jobs <&- >"$scratch/stdout" 2>"$scratch/stderr"
expect 0 "a $one_line
b $one_line
total jobs=2 done=2 skips=0" ''
expect_two_archives

begin 'jobs: standard output is full; the archives are whole'
run_two_jobs >/dev/full 2>"$scratch/stderr"
refused 'cannot write -'
expect_two_archives

# long_block BYTES: a raw block of so many bytes, and its CID.
long_block() {
  long=$(repeated "$1" 6c)
  long_cid=$(raw "$long")
}

# expect_beginning FILE BYTES: the file has the first so many bytes of the archive of the long block.
expect_beginning() {
  bytes "$(header "$long_cid")" "$(section "$long_cid" "$long")" >whole
  head -c "$2" whole >wanted.part
  expect_same "$1" wanted.part "$1"
}

# What waits in memory finds no room when it is written at last: of 1,024 bytes.
begin 'an archive that finds no room at its end: its job ends with write, the others are unharmed'
long_block 2000
write_blocks "$one_blocks" "$(section "$long_cid" "$long")"
write_jobs "a $one_job" "b $(text "$long_cid") 1 $matcher" "c $one_job"
bytes "$(repeated 300 ff)" >out/b.car
run_with_room 1 jobs --blocks blocks.car --jobs jobs.txt --out out
expect 4 "a $one_line
b write visits=1 kept=1 sections=1 bytes=$((59 + 2 + 36 + 2000))
c $one_line
total jobs=3 done=2 skips=0" 'cannot write out/b.car: File too large (os error 27)'
expect_folder out a.car b.car b.car.part c.car
expect_bytes out/a.car "$one_archive"
expect_bytes out/b.car "$(repeated 300 ff)"
expect_bytes out/c.car "$one_archive"
expect_beginning out/b.car.part 1024

# The block is longer than what waits in memory, so that the failure comes before the last write: of 16 KiB.
begin 'an archive with a long block that finds no room'
long_block 100000
write_blocks "$one_blocks" "$(section "$long_cid" "$long")"
write_jobs "a $(text "$long_cid") 1 $matcher" "b $one_job"
run_with_room 16 jobs --blocks blocks.car --jobs jobs.txt --out out
expect 4 "a write visits=0 kept=0 sections=0 bytes=16384
b $one_line
total jobs=2 done=1 skips=0" 'cannot write out/a.car: File too large (os error 27)'
expect_folder out a.car.part b.car
expect_bytes out/b.car "$one_archive"
expect_beginning out/a.car.part 16384

# The same on a full disk, where the machine lets a small one be made.
begin 'an archive on a full disk'
long_block 100000
write_blocks "$(section "$long_cid" "$long")"
write_jobs "a $(text "$long_cid") 1 $matcher"
if unshare --mount --map-root-user mount -t tmpfs -o size=64k none out 2>/dev/null; then
  unshare --mount --map-root-user bash -c '
    mount -t tmpfs -o size=64k none out && printf old >out/a.car && "$@" && exit; status=$?
    ls -A out >files; cat out/a.car >archive; exit "$status"' bash \
    "$program" jobs --blocks blocks.car --jobs jobs.txt --out out >"$scratch/stdout" 2>"$scratch/stderr" &&
    status=0 || status=$?
  sed -i 's/bytes=.*/bytes/' "$scratch/stdout"
  expect 4 'a write visits=0 kept=0 sections=0 bytes
total jobs=1 done=0 skips=0' 'cannot write out/a.car: No space left on device (os error 28)'
  expect_text 'files on the disk' $'a.car\na.car.part' "$(cat files)"
  expect_text 'the archive of the run before' old "$(cat archive)"
fi

# A run that is ended by a signal in the middle of a write leaves no archive under its name, and the next run is right.
begin 'a run that is interrupted in a write, and the next'
long_block 100000
write_blocks "$one_blocks" "$(section "$long_cid" "$long")"
write_jobs "a $(text "$long_cid") 1 $matcher" "b $one_job"
bytes "$(repeated 300 ff)" >out/b.car
{ (ulimit -c 0 -f 16 && exec "$program" jobs --blocks blocks.car --jobs jobs.txt --out out) ||
  status=$?; } >"$scratch/stdout" 2>/dev/null
expect 153 '' ''
# The other job had ended or not.
if [ -e out/b.car.part ]; then
  expect_folder out a.car.part b.car b.car.part
  expect_bytes out/b.car "$(repeated 300 ff)"
else
  expect_folder out a.car.part b.car
  expect_bytes out/b.car "$one_archive"
fi
run_jobs
expect 0 "a done visits=1 kept=1 sections=1 bytes=$((59 + 3 + 36 + 100000))
b $one_line
total jobs=2 done=2 skips=0" ''
expect_folder out a.car b.car
expect_bytes out/a.car "$(header "$long_cid")" "$(section "$long_cid" "$long")"
expect_bytes out/b.car "$one_archive"

# The first job takes long enough for a folder to come into the place of its archive while it runs.
begin 'an archive that finds its name taken: its job ends with write, the others have their names'
write_blocks "$one_blocks" "$(section "$self_cid" "81$(link "$self_cid")")"
write_jobs "a $(text "$self_cid") 1000000 $all" "b $one_job"
(until [ -e out/b.car.part ] || [ -e out/b.car ]; do :; done; mkdir out/a.car) &
run_jobs
wait
expect 4 "a write visits=1000000 kept=1 sections=0 bytes=59
  0 damaged bafyrei$(repeated 52 a)
b $one_line
total jobs=2 done=1 skips=1" 'cannot write out/a.car: Is a directory (os error 21)'
expect_folder out a.car a.car.part b.car
expect_bytes out/a.car.part "$(header "$self_cid")"
expect_bytes out/b.car "$one_archive"

begin 'jobs: standard output is closed, and there is no job'
write_blocks
: >jobs.txt
run_bare jobs --blocks blocks.car --jobs jobs.txt --out out >&- 2>"$scratch/stderr"
refused 'cannot write -'

begin 'a header that finds no room: its job is named by its number, from 0, and nothing is left'
long_cid=01551e$(varint 60000)$(repeated 60000 64)
write_blocks "$one_blocks"
write_jobs "a $one_job" "b $(text "$long_cid") 1 $matcher" "c $(text "$long_cid") 1 $matcher"
bytes "$(repeated 300 ff)" >out/a.car
run_with_room 16 jobs --blocks blocks.car --jobs jobs.txt --out out
refused 'cannot write job 1'
expect_folder out a.car
expect_bytes out/a.car "$(repeated 300 ff)"

# A file that is opened gets the first number that is free. Where that is the number of standard output
# or standard error, no report and no message may get into the file: an archive that is there is whole.
expect_no_more_than_archives() {
  local file
  for file in out/*.car; do
    if [ -e "$file" ]; then expect_bytes "$file" "$one_archive"; fi
  done
}

begin 'jobs: standard output is full and standard error is closed'
run_two_jobs >/dev/full 2>&-
expect_no_more_than_archives
refused ''

begin 'jobs: standard output is closed'
run_two_jobs >&- 2>"$scratch/stderr"
expect_no_more_than_archives
refused 'cannot write -'

begin 'jobs: standard input, output and error are closed'
run_two_jobs <&- >&- 2>&-
expect_no_more_than_archives
refused ''

# Without a file system for devices there is no /dev/null to be opened in place of a stream, and without one for processes
# no name of standard input. without_folder FOLDER COMMAND WORD..: runs a command where nothing is in that folder, if the
# machine lets one do that.
without_folder() {
  unshare --mount --map-root-user bash -c 'mount -t tmpfs none "$1" && shift && exec "$@"' bash "$@"
}

if without_folder /dev true 2>/dev/null; then
  begin 'standard output is closed, and there is no /dev/null'
  write_blocks "$one_blocks"
  write_jobs "a $one_job" "b $one_job"
  status=0
  without_folder /dev "$program" jobs --blocks blocks.car --jobs jobs.txt --out out >&- 2>"$scratch/stderr" || status=$?
  refused 'cannot write -'
  expect_two_archives
  title='standard error is closed, and there is no /dev/null'
  status=0
  without_folder /dev "$program" get --blocks blocks.car --root "$(text "$one_cid")" --out out/a.car 2>&- >"$scratch/stdout" || status=$?
  expect_text 'exit status' 0 "$status"
  expect_two_archives
  title='all streams are closed, and there is no /dev/null'
  status=0
  without_folder /dev "$program" jobs --blocks blocks.car --jobs jobs.txt --out out <&- >&- 2>&- || status=$?
  expect_text 'exit status' 2 "$status"
  expect_two_archives

  begin 'standard input that has no name, and an output that is there'
  write_blocks "$one_blocks"
  cp blocks.car library.car
  status=0
  without_folder /proc "$program" get --blocks - --root "$(text "$one_cid")" --out library.car <library.car >"$scratch/stdout" 2>"$scratch/stderr" || status=$?
  refused 'cannot write library.car: it may be standard input: give that file by its path, or another output'
  expect_same library.car blocks.car library.car
  title='standard input that has no name, and the part of an output that is there'
  cp blocks.car new.car.part
  status=0
  without_folder /proc "$program" get --blocks - --root "$(text "$one_cid")" --out new.car <new.car.part >"$scratch/stdout" 2>"$scratch/stderr" || status=$?
  refused 'cannot write new.car: it may be standard input: give that file by its path, or another output'
  expect_same new.car.part blocks.car new.car.part
  title='standard input that has no name, and an output that is not there'
  status=0
  without_folder /proc "$program" get --blocks - --root "$(text "$one_cid")" --out other.car <library.car >"$scratch/stdout" 2>"$scratch/stderr" || status=$?
  expect_text 'exit status' 0 "$status"
  expect_bytes other.car "$one_archive"
else
  echo 'tests/program.sh: no mounts here, so runs without /dev and /proc are not tested' >&2
fi

begin 'the help: standard output is full'
run_bare jobs --help >/dev/full 2>"$scratch/stderr"
refused 'cannot write -'
