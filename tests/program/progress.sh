# The options --progress and --quiet: what is on standard error, and that nothing else of a run changes.

begin 'progress: a line at the first close and at the last'
write_blocks "$one_blocks"
write_jobs "a $one_job" "short $(text "$one_cid") 1 $all"
run jobs "${inputs[@]}" --out out --walkers 1 --verifiers 1 --progress
# Both headers are written at first, of 59 bytes each; then the archives, of 178 and 138 bytes.
expect 4 "a $one_line
short limit visits=1 kept=1 sections=1 bytes=138
total jobs=2 done=1 skips=0" "progress: 1 of 2 jobs closed, 2 visits delivered, $((178 + 59)) bytes written
progress: 2 of 2 jobs closed, 3 visits delivered, $((178 + 138)) bytes written"
expect_folder out a.car short.car
expect_bytes out/a.car "$one_archive"

# A raw block under lists of two links, each to the one before: 2^17 - 1 visits of 17 blocks.
top_cid=$abc_cid
lists=
for _ in $(seq 16); do
  list=82$(link "$top_cid")$(link "$top_cid")
  top_cid=$(cbor "$list")
  lists+=$(section "$top_cid" "$list")
done

begin 'progress: a line after each 100,000 visits, one a second at most, and one at the end'
write_blocks "$lists" "$(section "$abc_cid" "$abc")"
write_jobs "a $(text "$top_cid") 1000000 $all"
run jobs "${inputs[@]}" --out out --progress
# The first 17 visits go down to the raw block, so all sections are written with them.
whole=$((59 + 16 * 120 + 40))
expect 0 "a done visits=131071 kept=131071 sections=17 bytes=$whole
total jobs=1 done=1 skips=0" "progress: 0 of 1 jobs closed, 100000 visits delivered, $whole bytes written
progress: 1 of 1 jobs closed, 131071 visits delivered, $whole bytes written"

begin 'progress: many closes in a moment'
write_blocks "$one_blocks"
seq -f "j%g $one_job" 300 >jobs.txt
run jobs "${inputs[@]}" --out out --progress
expect_text 'lines, one a second' few "$([ "$(wc -l <"$scratch/stderr")" -le $((SECONDS + 3)) ] && echo few || echo many)"
expect_text 'the last line' 'progress: 300 of 300 jobs closed, 600 visits delivered, 53400 bytes written' "$(tail -n 1 "$scratch/stderr")"

begin 'quiet: nothing is told where the status is 0, and else the report'
write_blocks "$one_blocks"
write_jobs "a $one_job"
run jobs "${inputs[@]}" --out out --progress --quiet
expect 0 '' ''
expect_bytes out/a.car "$one_archive"
write_jobs "a $one_job" "b $(text "$one_cid") 1 $all"
run jobs "${inputs[@]}" --out out --progress --quiet
expect 4 "a $one_line
b limit visits=1 kept=1 sections=1 bytes=138
total jobs=2 done=1 skips=0" ''

# of_terminal WORD..: what a command writes to a terminal that is both its outputs, a state of the line a line.
of_terminal() {
  status=0
  script -qec "$(printf '%q ' "$program" "$@")" /dev/null </dev/null >"$scratch/terminal" || status=$?
  tr '\r' '\n' <"$scratch/terminal" | sed $'s/\x1b\\[?7l//; s/\x1b\\[K\x1b\\[?7h$//' | grep -v '^$' >"$scratch/stdout" || true
}

# on_terminal WORD..: the same of the command `jobs`.
on_terminal() {
  of_terminal jobs "${inputs[@]}" --out out "$@"
}

if command -v script >/dev/null; then
  begin 'progress: a terminal has one line that is rewritten, and ends before the report'
  write_blocks "$one_blocks"
  write_jobs "a $one_job"
  on_terminal --progress
  expect_text 'exit status' 0 "$status"
  sed -i 's/, [0-9]* a second$/, R a second/' "$scratch/stdout"
  expect_lines 'the terminal' "loading 0 of 0 MiB
1 of 1 jobs closed, 0 MiB, 2 visits, R a second
a $one_line
total jobs=1 done=1 skips=0" "$scratch/stdout"
  expect_text 'line ends' 3 "$(tr -cd '\n' <"$scratch/terminal" | wc -c)"
  title='progress: a terminal of a short run has no such line'
  on_terminal
  expect_lines 'the terminal' "a $one_line
total jobs=1 done=1 skips=0" "$scratch/stdout"
  title='progress: nor has one that is to be quiet'
  on_terminal --progress --quiet
  expect_lines 'the terminal' '' "$scratch/stdout"
  title='progress: a refused run on a terminal'
  printf x >jobs.txt
  on_terminal --progress
  expect_text 'exit status' 2 "$status"
  expect_lines 'the terminal' 'loading 0 of 0 MiB
jobs: fields at line 1' "$scratch/stdout"
  begin 'progress: verify tells a terminal how much is read and checked, and ends the line before its report'
  bytes "$one_archive" >a.car
  of_terminal verify a.car --progress
  expect_lines 'the terminal' 'loading 0 of 0 MiB
2 sections checked, 2 links followed
a.car sound sections=2 bytes=178' "$scratch/stdout"
  expect_text 'line ends' 2 "$(tr -cd '\n' <"$scratch/terminal" | wc -c)"
  for words in '' '--progress --quiet'; do
    of_terminal verify a.car --all $words
    expect_lines "the terminal with $words" "$([ -n "$words" ] || echo 'a.car sound sections=2 bytes=178')" "$scratch/stdout"
  done
else
  echo 'tests/program.sh: no script here, so what a terminal is told is not tested' >&2
fi

begin 'progress: verify tells of all its files so far, once for each'
bytes "$one_archive" >a.car
run verify a.car a.car --progress
expect 0 'a.car sound sections=2 bytes=178
a.car sound sections=2 bytes=178' 'progress: 2 sections checked, 2 links followed
progress: 4 sections checked, 4 links followed'
run verify a.car --progress --blocks-only
expect 0 'a.car sound sections=2 bytes=178' 'progress: 2 sections checked, 0 links followed'
run verify a.car --progress --quiet
expect 0 '' ''

begin 'progress: the examples by many threads'
run jobs --blocks "$top/examples/library.car" --jobs "$top/examples/library.jobs" --out out --progress
expect_text 'exit status' 4 "$status"
expect_lines 'standard output' "$(cat "$top/examples/expected/report.txt")" "$scratch/stdout"
expect_text 'the first line' 'progress: 1 of 5 jobs closed' "$(head -n 1 "$scratch/stderr" | cut -d, -f1)"
expect_text 'the last line' 'progress: 5 of 5 jobs closed, 35 visits delivered, 3161 bytes written' \
  "$(tail -n 1 "$scratch/stderr")"
for name in album first-three front parts whole; do
  expect_same "out/$name.car" "$top/examples/expected/$name.car" "out/$name.car"
done

begin 'progress: standard error is closed'
write_blocks "$one_blocks"
write_jobs "a $one_job"
run_bare jobs "${inputs[@]}" --out out --progress 2>&- >"$scratch/stdout"
expect 0 "a $one_line
total jobs=1 done=1 skips=0" ''
expect_folder out a.car
expect_bytes out/a.car "$one_archive"

begin 'progress: nothing is told of a run that is refused'
write_blocks "$one_blocks"
write_jobs "a $one_job"
run jobs "${inputs[@]}" --out none --progress
refused 'cannot write none/a.car'
