# The option --whole: archives of which nothing was skipped get names. Without it what replaces a file and lacks something is told.

whole_one=(get --blocks blocks.car --root "$one_text" --out out/a.car)
one_cut="get done visits=2 kept=2 sections=1 bytes=138
  1 missing $abc_text
total jobs=1 done=1 skips=1"

begin 'whole: get, of which a link is skipped'
write_blocks "$(section "$one_cid" "$one")"
run "${whole_one[@]}" --whole
expect 4 '' "left out/a.car.part: 1 link was skipped
$one_cut"
expect_folder out a.car.part
run get --blocks blocks.car --root "$one_text" --whole
expect_text 'exit status without a file' 4 "$status"
bytes "$one_archive" >out/a.car
run "${whole_one[@]}" --partial --complete --whole
expect_text 'exit status' 4 "$status"
expect_bytes out/a.car "$one_archive"
run "${whole_one[@]}" --whole --allow-missing raw
expect 0 '' 'get done visits=2 kept=2 sections=1 bytes=138 absent=1
total jobs=1 done=1 skips=0'
expect_bytes out/a.car "$(header "$one_cid")" "$(section "$one_cid" "$one")"
for words in '' '--whole --complete' '--whole --partial'; do
  run "${whole_one[@]}" $words
  expect 3 '' "warning: out/a.car replaced an existing file: 1 link was skipped
$one_cut"
done

begin 'whole: get, of which nothing is skipped'
write_blocks "$one_blocks"
run "${whole_one[@]}" --whole
expect 0 '' "get $one_line
total jobs=1 done=1 skips=0"
run "${whole_one[@]}" --whole --limit 1
expect 4 '' "left out/a.car.part: its job ended with limit
get limit visits=1 kept=1 sections=1 bytes=138
total jobs=1 done=0 skips=0"
expect_bytes out/a.car "$one_archive"

begin 'whole: jobs, of which one is'
write_blocks "$(section "$one_cid" "$one")"
write_jobs "a $one_job" "b $one_text 9 $matcher"
for name in a b; do bytes ff >out/$name.car; done
run jobs --blocks blocks.car --jobs jobs.txt --out out --whole
expect_text 'exit status' 4 "$status"
expect_lines 'standard error' 'left out/a.car.part: 1 link was skipped' "$scratch/stderr"
expect_bytes out/a.car ff
expect_bytes out/b.car "$(header "$one_cid")" "$(section "$one_cid" "$one")"
run jobs --blocks blocks.car --jobs jobs.txt --out out --whole --json
expect_text 'the place of each' '"part":"out/a.car.part" "file":"out/b.car"' "$(grep -o '"\(file\|part\)":"[^"]*"' "$scratch/stdout" | paste -sd ' ')"
run jobs --blocks blocks.car --jobs jobs.txt --out out --whole --partial
expect_text 'exit status' 3 "$status"
expect_lines 'standard error' 'warning: out/a.car replaced an existing file: 1 link was skipped' "$scratch/stderr"
write_jobs "b $one_text 9 $matcher"
run jobs --blocks blocks.car --jobs jobs.txt --out out --whole --quiet
expect 0 '' ''

begin 'a job file without a job'
write_blocks "$one_blocks"
: >jobs.txt
run jobs --blocks blocks.car --jobs jobs.txt --out out --quiet
expect 0 '' 'note: jobs.txt has no job'
write_jobs "a $one_job"
run jobs --blocks blocks.car --jobs jobs.txt --out out --quiet --part 1/2
expect 0 '' 'note: part 1/2 of jobs.txt has no job'
run jobs --blocks blocks.car --jobs jobs.txt --out out --quiet --part 2/2
expect 0 '' ''
