# Archives that have their names while other jobs run, jobs whose archive can't be named or written, and --resume.

# A DAG-CBOR list of a link to itself, which can't be: it is met a million times, and damaged.
slow_cid=01711220$(repeated 32 00)
slow_blocks=$(section "$slow_cid" "81$(link "$slow_cid")")
slow_line() {
  printf '%s visits=%d kept=1 sections=0 bytes=59\n  0 damaged %s' "$1" "$2" "$(text "$slow_cid")"
}

run_resumed() {
  run jobs --blocks blocks.car --jobs jobs.txt --out out --resume "$@"
}

# The second job runs for as long as it takes, so the first and the third have their names while it runs.
begin 'a run that is killed: the archives of the jobs that had ended have their names, and --resume writes the rest'
write_blocks "$one_blocks" "$slow_blocks"
write_jobs "a $one_job" "b $(text "$slow_cid") 4000000000 $all" "c $one_job"
"$program" jobs --blocks blocks.car --jobs jobs.txt --out out --max-limit 4000000000 >"$scratch/stdout" 2>"$scratch/stderr" &
running=$!
until [ -e out/a.car ] && [ -e out/c.car ]; do kill -0 $running; done
{ kill -9 $running && wait $running; } 2>/dev/null || status=$?
expect 137 '' ''
expect_folder out a.car b.car.part c.car
expect_bytes out/a.car "$one_archive"
expect_bytes out/c.car "$one_archive"
write_jobs "a $one_job" "b $(text "$slow_cid") 5 $all" "c $one_job"
run_resumed
expect 4 "b $(slow_line limit 5)
total jobs=1 done=0 skips=1" 'note: 2 jobs were left out: their archives are there'
expect_folder out a.car b.car c.car
expect_bytes out/b.car "$(header "$slow_cid")"

begin "the middle job can't be named: it ends with write, and --resume writes it alone"
write_blocks "$one_blocks" "$slow_blocks"
write_jobs "a $one_job" "b $(text "$slow_cid") 1000000 $all" "c $one_job"
(until [ -e out/c.car.part ] || [ -e out/c.car ]; do :; done; mkdir out/b.car) &
run jobs --blocks blocks.car --jobs jobs.txt --out out --json
wait
taken='cannot write out/b.car: Is a directory (os error 21)'
expect_lines 'standard error' "$taken" "$scratch/stderr"
expect_text 'exit status' 4 "$status"
expect_text 'the ends, and where each archive is' 'a done out/a.car
b write out/b.car.part
c done out/c.car' "$(sed -nE 's/^\{"job":"([a-z])","end":"([a-z]+)".*"(file|part)":"([^"]*)".*/\1 \2 \4/p' "$scratch/stdout")"
expect_folder out a.car b.car b.car.part c.car
expect_bytes out/b.car.part "$(header "$slow_cid")"
rmdir out/b.car
run_resumed
expect 4 "b $(slow_line limit 1000000)
total jobs=1 done=0 skips=1" 'note: 2 jobs were left out: their archives are there'
expect_folder out a.car b.car c.car
expect_bytes out/b.car "$(header "$slow_cid")"

begin "the middle job can't be named with --whole: it is left"
write_blocks "$one_blocks" "$slow_blocks"
(until [ -e out/b.car.part ]; do :; done; mkdir out/b.car) &
write_jobs "a $(text "$slow_cid") 1000000 $all" "b $one_job" "c $one_job"
run jobs --blocks blocks.car --jobs jobs.txt --out out --whole --walkers 1 --verifiers 1
wait
expect 4 "a $(slow_line limit 1000000)
b write visits=2 kept=2 sections=2 bytes=178
c $one_line
total jobs=3 done=1 skips=1" 'left out/a.car.part: its job ended with limit
left out/b.car.part: its job ended with write
cannot write out/b.car: Is a directory (os error 21)'
expect_folder out a.car.part b.car b.car.part c.car

begin "the middle job can't be written: the others have their names, and --resume writes it"
long=$(repeated 100000 6c)
long_cid=$(raw "$long")
write_blocks "$one_blocks" "$(section "$long_cid" "$long")"
write_jobs "a $one_job" "b $(text "$long_cid") 1 $matcher" "c $one_job"
for words in '' --sync; do
  rm -rf out/*
  run_with_room 16 jobs --blocks blocks.car --jobs jobs.txt --out out $words
  expect 4 "a $one_line
b write visits=0 kept=0 sections=0 bytes=16384
c $one_line
total jobs=3 done=2 skips=0" 'cannot write out/b.car: File too large (os error 27)'
  expect_folder out a.car b.car.part c.car
done
run_resumed
expect 0 "b done visits=1 kept=1 sections=1 bytes=$((59 + 3 + 36 + 100000))
total jobs=1 done=1 skips=0" 'note: 2 jobs were left out: their archives are there'
expect_folder out a.car b.car c.car
expect_bytes out/b.car "$(header "$long_cid")" "$(section "$long_cid" "$long")"

begin '--resume where nothing is there, one archive, and all'
write_blocks "$one_blocks"
write_jobs "a $one_job" "b $one_job"
run_resumed
expect 0 "a $one_line
b $one_line
total jobs=2 done=2 skips=0" ''
rm out/a.car
run_resumed
expect 0 "a $one_line
total jobs=1 done=1 skips=0" 'note: 1 job was left out: its archive is there'
run_resumed
expect 0 'total jobs=0 done=0 skips=0' 'note: 2 jobs were left out: their archives are there'
run_resumed --json
expect 0 '{"total":{"jobs":0,"done":0,"skips":0}}' 'note: 2 jobs were left out: their archives are there'
expect_bytes out/a.car "$one_archive"
expect_folder out a.car b.car

begin '--resume of a part: of its jobs alone'
write_blocks "$one_blocks"
write_jobs "a $one_job" "b $one_job" "c $one_job" "d $one_job"
bytes "$one_archive" >out/a.car
bytes "$one_archive" >out/c.car
run_resumed --part 2/2
expect 0 "d $one_line
total jobs=1 done=1 skips=0" 'note: 1 job was left out: its archive is there'
expect_folder out a.car c.car d.car

begin '--resume without a job'
write_blocks "$one_blocks"
: >jobs.txt
run_resumed
expect 0 'total jobs=0 done=0 skips=0' 'note: jobs.txt has no job'

# What is under the name is replaced unless it is a file that begins with the header.
begin '--resume looks at the header, and follows no link'
write_blocks "$one_blocks"
write_jobs "a $one_job"
bytes "$one_archive" >whole.car
for there in empty short other several link hard; do
  rm -f out/*
  case $there in
    empty) : >out/a.car ;;
    short) bytes "$(header "$one_cid")" | head -c 58 >out/a.car ;;
    other) bytes "$(header "$abc_cid")" "$(section "$abc_cid" "$abc")" >out/a.car ;;
    several) bytes "$(header "$one_cid" "$one_cid")" "$one_blocks" >out/a.car ;;
    link) ln -s ../whole.car out/a.car ;;
    hard) ln whole.car out/a.car ;;
  esac
  run_resumed
  if [ $there = hard ]; then
    expect 0 'total jobs=0 done=0 skips=0' 'note: 1 job was left out: its archive is there'
  else
    expect 0 "a $one_line
total jobs=1 done=1 skips=0" ''
    expect_bytes out/a.car "$one_archive"
    [ ! -L out/a.car ] || fail 'file in place of the link' /dev/null /dev/null
  fi
done
title='only the header counts'
bytes "$(header "$one_cid")" >out/a.car
run_resumed
expect 0 'total jobs=0 done=0 skips=0' 'note: 1 job was left out: its archive is there'
expect_bytes out/a.car "$(header "$one_cid")"
rm out/a.car
mkfifo out/a.car
run_resumed
expect 0 "a $one_line
total jobs=1 done=1 skips=0" ''
expect_bytes out/a.car "$one_archive"

# The folder is neither left out nor replaced.
begin '--resume where a folder has the name'
write_blocks "$one_blocks"
write_jobs "a $one_job"
mkdir out/a.car
run_resumed
refused 'cannot write out/a.car'

for words in '--resume --resume' '--resume=yes'; do
  words_refused jobs "${inputs[@]}" --out out $words
done
words_refused root --resume
