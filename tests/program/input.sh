# The path `-`, which is standard input.

begin 'the blocks come from standard input'
write_blocks "$one_blocks"
write_jobs "a $one_job"
run jobs --blocks - --jobs jobs.txt --out out <blocks.car
expect 0 "a $one_line
total jobs=1 done=1 skips=0" ''
expect_bytes out/a.car "$one_archive"
title='and through a pipe'
run_bare jobs --blocks - --jobs jobs.txt --out out < <(cat blocks.car) >"$scratch/stdout" 2>"$scratch/stderr"
expect 0 "a $one_line
total jobs=1 done=1 skips=0" ''

begin 'the job file comes from standard input'
write_blocks "$one_blocks"
run jobs --blocks blocks.car --jobs - --out out <<<"a $one_job"
expect 0 "a $one_line
total jobs=1 done=1 skips=0" ''
expect_bytes out/a.car "$one_archive"

begin 'both come from standard input: the words are refused'
write_blocks "$one_blocks"
run jobs --blocks - --jobs - --out out <blocks.car
expect_text 'exit status' 2 "$status"
expect_lines 'standard output' '' "$scratch/stdout"
grep -q '^error: ' "$scratch/stderr" || fail 'standard error' /dev/null "$scratch/stderr"
expect_folder out

begin 'standard input is closed, and is no input without bytes'
write_blocks "$one_blocks"
run jobs --blocks blocks.car --jobs - --out out <&-
refused 'cannot read -'
run jobs --blocks - --jobs blocks.car --out out <&-
refused 'cannot read -'

begin 'an output that is the file at standard input'
write_blocks "$one_blocks"
write_jobs "a $one_job"
mv blocks.car out/a.car
run jobs --blocks - --jobs jobs.txt --out out <out/a.car
refused 'cannot write out/a.car'
expect_folder out a.car

begin 'a selector from standard input'
run selector - <<<'{".":{}}'
expect 0 "$matcher" ''
