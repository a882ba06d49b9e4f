# The short forms of options: -o, -q and -v do what --out, --quiet and --verbose do, at each command that has these.

begin 'short forms: -o of get and of jobs'
write_blocks "$one_blocks"
write_jobs "a $one_job"
run get --blocks blocks.car --root "$(text "$one_cid")" -o out/b.car
expect 0 '' "get $one_line
total jobs=1 done=1 skips=0"
expect_folder out b.car
expect_bytes out/b.car "$one_archive"
run jobs "${inputs[@]}" -o out
expect 0 "a $one_line
total jobs=1 done=1 skips=0" ''
expect_folder out a.car b.car
expect_bytes out/a.car "$one_archive"
title='short forms: an empty -o is an empty --out'
run jobs "${inputs[@]}" -o ''
expect_text 'exit status' 2 "$status"
expect_text 'the first line' "error: a value is required for '--out <DIR>' but none was supplied" "$(head -n 1 "$scratch/stderr")"

begin 'short forms: -q of get and of jobs'
write_blocks "$one_blocks"
write_jobs "a $one_job"
run get --blocks blocks.car --root "$(text "$one_cid")" --out out/b.car --progress -q
expect 0 '' ''
run jobs "${inputs[@]}" --out out --progress -q
expect 0 '' ''

begin 'short forms: -v of jobs and of root'
write_blocks "$one_blocks"
run jobs "${inputs[@]}" --out out -v
refused 'cannot read jobs.txt
No such file or directory (os error 2)'
printf x >input
run root --cid "$abc_text" -v <input
refused 'input: hex
odd number of digits, or a character that is not a hex digit'

# No other command has -o or -v, and none has a short form of another option.
for command in job check-jobs selector inspect verify; do
  for option in -o -v; do
    words_refused "$command" "$option"
  done
done
words_refused jobs "${inputs[@]}" --out out -b
words_refused jobs "${inputs[@]}" --out out -q --quiet
