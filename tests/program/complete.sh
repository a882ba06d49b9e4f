# The option --complete: archives of jobs that are done with all their roots get names, and a line says why another gets none.

begin 'complete: a done job is named, others stay as they were written'
write_blocks "$(section "$with_zero_cid" "$with_one")" "$one_blocks"
pb_cid=01701220$(digest "$abc")
write_jobs "whole $one_job" "short $(text "$one_cid") 1 $all" "gone $abc_text,$(text "$(raw 6d)") 9 $all" "bad $(text "$with_zero_cid") 9 $all" \
  "other $(text "$pb_cid") 9 $all" "inline $(text "$(raw_inline "$abc")") 9 $matcher"
bytes ff >out/gone.car
run jobs --blocks blocks.car --jobs jobs.txt --out out --complete
expect_text 'exit status' 4 "$status"
expect_lines 'standard error' "left out/short.car.part: its job ended with limit
left out/gone.car.part: its root $(text "$(raw 6d)") is missing
left out/bad.car.part: its root $(text "$with_zero_cid") is damaged
left out/other.car.part: its root $(text "$pb_cid") has a codec that isn't exported" "$scratch/stderr"
expect_folder out bad.car.part gone.car gone.car.part inline.car other.car.part short.car.part whole.car
expect_bytes out/whole.car "$one_archive"
expect_bytes out/gone.car ff
expect_bytes out/gone.car.part "$(header "$abc_cid" "$(raw 6d)")" "$(section "$abc_cid" "$abc")"
expect_bytes out/inline.car "$(header "$(raw_inline "$abc")")"
mv "$scratch/stdout" report
title='complete: the report and the status are those of a run without it'
run_jobs
expect_text 'exit status' 4 "$status"
expect_lines 'standard error' "warning: out/gone.car replaced an existing file: its root $(text "$(raw 6d)") is missing" "$scratch/stderr"
expect_same 'standard output' report "$scratch/stdout"
expect_folder out bad.car gone.car inline.car other.car short.car whole.car

begin 'complete: what is skipped below a root leaves it complete'
write_blocks "$(section "$fork_cid" "$fork")" "$(section "$with_zero_cid" "$with_one")" "$one_blocks"
write_jobs "a $(text "$fork_cid") 100 $all"
run jobs --blocks blocks.car --jobs jobs.txt --out out --complete --sync
expect_text 'exit status' 3 "$status"
expect_lines 'standard error' '' "$scratch/stderr"
expect_folder out a.car
