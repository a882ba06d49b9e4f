# Two runs at once in one folder.

# A damaged block that links to itself is visited as often as the limit says, so its run lasts.
around=81$(link "$self_cid")
long_job="$(text "$self_cid") 1000000 $all"
long_report="long limit visits=1000000 kept=1 sections=0 bytes=59
  0 damaged $(text "$self_cid")
total jobs=1 done=0 skips=1"

# begin_long TITLE: begins a case in which a run of the job `long` was stopped while it writes, which it does once it has
# threads: its outputs were made and locked before.
begin_long() {
  begin "$1"
  write_blocks "$(section "$self_cid" "$around")" "$one_blocks"
  write_jobs "long $long_job"
  "$program" jobs --blocks blocks.car --jobs jobs.txt --out out --walkers 1 --verifiers 1 >first.out 2>first.err &
  first=$!
  until [ "$(ls "/proc/$first/task" 2>/dev/null | wc -l)" -gt 1 ] || ! kill -0 "$first" 2>/dev/null; do :; done
  kill -STOP "$first"
  expect_folder out long.car.part
}

# end_long STATUS ERRORS: the run goes on to its end.
end_long() {
  kill -CONT "$first"
  status=0
  wait "$first" || status=$?
  expect_text 'exit status of the first run' "$1" "$status"
  expect_lines 'standard output of the first run' "${long_report/ limit / ${3-limit} }" first.out
  expect_lines 'standard error of the first run' "$2" first.err
}

begin_long 'a run whose archive another run writes'
run_jobs
refused 'cannot write out/long.car'
write_jobs "a $one_job" "long $one_job" "z $one_job"
run_jobs
refused 'cannot write out/long.car'
expect_folder out long.car.part
end_long 4 ''
expect_folder out long.car
expect_bytes out/long.car "$(header "$self_cid")"

begin_long 'two runs over other names in one folder'
write_jobs "a $one_job"
run_jobs
expect 0 "a $one_line"$'\ntotal jobs=1 done=1 skips=0' ''
expect_folder out a.car long.car.part
end_long 4 ''
expect_folder out a.car long.car

begin_long 'a run behind one that was killed'
{ kill -KILL "$first" && wait "$first"; } 2>/dev/null || :
expect_folder out long.car.part
write_jobs "long $one_job"
run_jobs
expect 0 "long $one_line"$'\ntotal jobs=1 done=1 skips=0' ''
expect_folder out long.car
expect_bytes out/long.car "$one_archive"

begin_long 'a file that was put where a run writes'
rm out/long.car.part
bytes ff >out/long.car.part
end_long 4 'cannot write out/long.car: its .part is no longer the file that was written' write
expect_folder out long.car.part
expect_bytes out/long.car.part ff

begin 'runs that begin at the same time'
write_blocks "$one_blocks"
write_jobs "a $one_job"
for turn in $(seq 20); do
  rm -f out/*
  runs=()
  for number in 1 2 3; do
    "$program" jobs --blocks blocks.car --jobs jobs.txt --out out >"$number.out" 2>"$number.err" &
    runs+=($!)
  done
  written=0
  for number in 1 2 3; do
    status=0
    wait "${runs[number - 1]}" || status=$?
    if [ "$status" = 0 ]; then
      written=1
      expect_lines 'standard output' "a $one_line"$'\ntotal jobs=1 done=1 skips=0' "$number.out"
    else
      expect_text 'exit status' 2 "$status"
      expect_lines 'standard error' 'cannot write out/a.car' "$number.err"
    fi
  done
  if [ "$written" = 1 ]; then
    expect_bytes out/a.car "$one_archive"
  fi
done
