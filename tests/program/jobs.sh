# The command `jobs`: how jobs end, the exit status, the archives, and the form of the job file.

begin 'all done and nothing skipped: status 0'
write_blocks "$one_blocks"
write_jobs "bare $one_job" "enveloped $(text "$one_cid") 100 $envelope" "alone $abc_text 1 $matcher"
run_jobs
expect 0 "bare $one_line
enveloped $one_line
alone done visits=1 kept=1 sections=1 bytes=99
total jobs=3 done=3 skips=0" ''
expect_folder out alone.car bare.car enveloped.car
expect_bytes out/bare.car "$one_archive"
expect_bytes out/enveloped.car "$one_archive"
expect_bytes out/alone.car "$(header "$abc_cid")" "$(section "$abc_cid" "$abc")"

begin 'a missing root: status 3'
write_blocks
write_jobs "a $abc_text 100 $matcher"
run_jobs
expect 3 "a done visits=1 kept=1 sections=0 bytes=59
  0 missing $abc_text
total jobs=1 done=1 skips=1" ''
expect_bytes out/a.car "$(header "$abc_cid")"

begin 'what is below a damaged block is cut off'
write_blocks "$(section "$fork_cid" "$fork")" "$(section "$with_zero_cid" "$with_one")" "$one_blocks"
write_jobs "a $(text "$fork_cid") 100 $all"
run_jobs
expect 3 "a done visits=5 kept=4 sections=3 bytes=298
  1 damaged $(text "$with_zero_cid")
total jobs=1 done=1 skips=1" ''
expect_bytes out/a.car "$(header "$fork_cid")" "$(section "$fork_cid" "$fork")" "$one_blocks"

begin 'two roots: one header, one limit, and a block once'
write_blocks "$one_blocks"
write_jobs "a $abc_text,$(text "$one_cid") 3 $all" "short $abc_text,$(text "$one_cid") 2 $all" "twice $abc_text,$abc_text 10 $matcher"
run_jobs
expect 4 "a done visits=3 kept=3 sections=2 bytes=219
short limit visits=2 kept=2 sections=2 bytes=219
twice done visits=2 kept=2 sections=1 bytes=140
total jobs=3 done=2 skips=0" ''
expect_bytes out/a.car "$(header "$abc_cid" "$one_cid")" "$(section "$abc_cid" "$abc")" "$(section "$one_cid" "$one")"
expect_bytes out/short.car "$(header "$abc_cid" "$one_cid")" "$(section "$abc_cid" "$abc")" "$(section "$one_cid" "$one")"
expect_bytes out/twice.car "$(header "$abc_cid" "$abc_cid")" "$(section "$abc_cid" "$abc")"

begin 'a damaged root before a good one'
write_blocks "$(section "$with_zero_cid" "$with_one")" "$(section "$abc_cid" "$abc")"
write_jobs "a $(text "$with_zero_cid"),$abc_text 100 $all"
run_jobs
expect 3 "a done visits=3 kept=2 sections=1 bytes=140
  0 damaged $(text "$with_zero_cid")
total jobs=1 done=1 skips=1" ''
expect_bytes out/a.car "$(header "$with_zero_cid" "$abc_cid")" "$(section "$abc_cid" "$abc")"

begin 'links of another codec and hash, and a block that does not decode'
pb_cid=01701220$(digest "$abc")
pb_0_cid=1220$(digest "$abc")
blake_cid=01551e20$(digest "$abc")
bad_cid=$(cbor 1805)
mixed=84$(link "$pb_cid")$(link "$pb_0_cid")$(link "$blake_cid")$(link "$bad_cid")
write_blocks "$(section "$(cbor "$mixed")" "$mixed")" "$(section "$bad_cid" 1805)"
write_jobs "a $(text "$(cbor "$mixed")") 100 $all"
run_jobs
expect 3 "a done visits=5 kept=5 sections=1 bytes=$((59 + 2 + 36 + ${#mixed} / 2))
  1 codec $(text "$pb_cid")
  2 codec v0-$pb_0_cid
  3 hash $(text "$blake_cid")
  4 malformed $(text "$bad_cid")
total jobs=1 done=1 skips=4" ''
expect_bytes out/a.car "$(header "$(cbor "$mixed")")" "$(section "$(cbor "$mixed")" "$mixed")"

begin 'a limit: status 4, and a beginning of the archive'
write_blocks "$one_blocks"
write_jobs "short $(text "$one_cid") 1 $all" "exact $(text "$one_cid") 2 $all"
run_jobs
expect 4 "short limit visits=1 kept=1 sections=1 bytes=138
exact $one_line
total jobs=2 done=1 skips=0" ''
expect_bytes out/short.car "$(header "$one_cid")" "$(section "$one_cid" "$one")"
expect_bytes out/exact.car "$one_archive"

begin 'a damaged block that links to itself: limit, and its skip is told'
self_cid=01711220$(repeated 32 00)
write_blocks "$(section "$self_cid" "81$(link "$self_cid")")"
write_jobs "a $(text "$self_cid") 5 $all"
run_jobs
expect 4 "a limit visits=5 kept=1 sections=0 bytes=59
  0 damaged bafyrei$(repeated 52 a)
total jobs=1 done=0 skips=1" ''
expect_bytes out/a.car "$(header "$self_cid")"

begin 'an empty job file'
write_blocks "$one_blocks"
: >jobs.txt
run_jobs
expect 0 'total jobs=0 done=0 skips=0' 'note: jobs.txt has no job'
expect_folder . blocks.car jobs.txt out
expect_folder out

begin 'an empty job file, and an output folder that is not there'
write_blocks
: >jobs.txt
run jobs --blocks blocks.car --jobs jobs.txt --out none
expect 0 'total jobs=0 done=0 skips=0' 'note: jobs.txt has no job'
expect_folder . blocks.car jobs.txt out

begin 'comments, empty lines, line ends of two bytes, and none on the last line'
write_blocks "$one_blocks"
printf '# caf\xc3\xa9\t\r\n\r\n\nb %s\r\n#\n-_0 %s\r' "$one_job" "$one_job" >jobs.txt
run_jobs
expect 0 "b $one_line
-_0 $one_line
total jobs=2 done=2 skips=0" ''
expect_folder out -_0.car b.car
expect_bytes out/-_0.car "$one_archive"

begin 'the longest name, the greatest limit, and hexadecimal in upper case'
name=$(repeated 64 n)
write_blocks "$one_blocks"
write_jobs "$name $(text "$one_cid") 1000000 $(tr a-f A-F <<<"$all")"
run_jobs
expect 0 "$name $one_line
total jobs=1 done=1 skips=0" ''
expect_bytes "out/$name.car" "$one_archive"

begin 'limits up to the N of --max-limit, in a part too'
write_blocks "$one_blocks"
write_jobs "a $(text "$one_cid") 1000001 $all"
run_jobs
refused 'jobs: limit at line 1'
for word in '' '--part=1/1'; do
  run jobs --blocks blocks.car --jobs jobs.txt --out out --max-limit 2000000 $word
  expect 0 "a $one_line
total jobs=1 done=1 skips=0" ''
  run jobs --blocks blocks.car --jobs jobs.txt --out out --max-limit 1000000 $word
  refused 'jobs: limit at line 1'
done
write_jobs "a $(text "$one_cid") 4294967295 $all"
run jobs --blocks blocks.car --jobs jobs.txt --out out --max-limit 4294967295
expect 0 "a $one_line
total jobs=1 done=1 skips=0" ''
run jobs --blocks blocks.car --jobs jobs.txt --out out --max-limit 4294967294
refused 'jobs: limit at line 1'

begin 'a thousand jobs'
write_blocks "$one_blocks"
seq -f "j%g $one_job" 1000 >jobs.txt
run_jobs
expect 0 "$(seq -f "j%g $one_line" 1000)
total jobs=1000 done=1000 skips=0" ''
expect_folder out $(seq -f 'j%g.car' 1000 | sort)
expect_text 'digests of the archives' "$(digest "$one_archive")" "$(sha256sum out/* | cut -c 1-64 | uniq)"

begin 'a longer file that is there is replaced'
write_blocks "$one_blocks"
write_jobs "a $one_job"
bytes "$(repeated 1000 ff)" >out/a.car
run_jobs
expect 0 "a $one_line
total jobs=1 done=1 skips=0" ''
expect_bytes out/a.car "$one_archive"

begin 'the archives are on the disk before they get their names'
write_blocks "$one_blocks"
write_jobs "a $one_job" "short $(text "$one_cid") 1 $all"
run jobs --blocks blocks.car --jobs jobs.txt --out out --sync
expect 4 "a $one_line
short limit visits=1 kept=1 sections=1 bytes=138
total jobs=2 done=1 skips=0" ''
expect_folder out a.car short.car
expect_bytes out/a.car "$one_archive"
expect_bytes out/short.car "$(header "$one_cid")" "$(section "$one_cid" "$one")"

begin 'what an interrupted run left is replaced'
write_blocks "$one_blocks"
write_jobs "a $one_job" "b $one_job"
bytes "$(repeated 1000 ff)" >out/a.car.part
bytes "$(repeated 1000 ff)" >out/b.car.part
chmod 444 out/b.car.part
run_jobs
expect 0 "a $one_line
b $one_line
total jobs=2 done=2 skips=0" ''
expect_folder out a.car b.car
expect_bytes out/a.car "$one_archive"
expect_bytes out/b.car "$one_archive"

# No run makes a link there, and none can be locked, so none is removed.
begin 'a link where an archive is written: it stays, and what it names too'
write_blocks "$one_blocks"
write_jobs "a $one_job" "b $one_job"
bytes ff >elsewhere
ln -s ../elsewhere out/b.car.part
run_jobs
refused 'cannot write out/b.car'
expect_folder out b.car.part
expect_bytes elsewhere ff
run jobs --blocks blocks.car --jobs jobs.txt --out out --verbose
refused 'cannot write out/b.car
something other than a file is at its .part: remove that'

begin 'a file that replaces one keeps its permission bits; a new one has those of new files'
write_blocks "$one_blocks"
write_jobs "a $one_job" "b $one_job" "c $one_job"
bytes ff >out/a.car
bytes ff >out/b.car
chmod 600 out/a.car
chmod 664 out/b.car
(umask 022 && run_jobs && exit "$status") && status=0 || status=$?
expect_text 'exit status' 0 "$status"
expect_text 'permission bits' '600 664 644' "$(stat -c %a out/a.car out/b.car out/c.car | xargs)"
expect_bytes out/a.car "$one_archive"

# replaced NAME WHY: the warning of an archive that lacks something, in the place of a file.
replaced() {
  echo "warning: out/$1.car replaced an existing file: $2"
}

begin 'a file that is replaced by an archive that lacks something: a warning'
write_blocks "$one_blocks"
write_jobs "a $one_job" "short $(text "$one_cid") 1 $all" "gone $(text "$(raw 6d)") 9 $all" "new $(text "$(raw 6d)") 9 $all"
for name in a short gone; do bytes "$one_archive" >"out/$name.car"; done
run_jobs
expect_text 'exit status' 4 "$status"
expect_lines 'standard error' "$(replaced short 'its job ended with limit')
$(replaced gone "its root $(text "$(raw 6d)") is missing")" "$scratch/stderr"
expect_bytes out/gone.car "$(header "$(raw 6d)")"
title='no warning where the status is 2'
for name in a short gone; do bytes "$one_archive" >"out/$name.car"; done
run_bare jobs --blocks blocks.car --jobs jobs.txt --out out >/dev/full 2>"$scratch/stderr"
: >"$scratch/stdout"
refused 'cannot write -'

begin 'an output folder without a name'
write_blocks "$one_blocks"
write_jobs "a $one_job"
run jobs --blocks blocks.car --jobs jobs.txt --out ''
expect_text 'exit status' 2 "$status"
expect_text 'the first line' "error: a value is required for '--out <DIR>' but none was supplied" "$(head -n 1 "$scratch/stderr")"
expect_folder . blocks.car jobs.txt out

begin 'a link in the place of an archive is replaced, and not what it names'
write_blocks "$one_blocks"
write_jobs "a $one_job"
bytes ff >elsewhere
ln -s ../elsewhere out/a.car
run_jobs
expect 0 "a $one_line
total jobs=1 done=1 skips=0" ''
expect_bytes out/a.car "$one_archive"
expect_bytes elsewhere ff
[ ! -L out/a.car ] || fail 'out/a.car is a link' /dev/null /dev/null

begin 'paths with blanks and letters beyond ASCII'
mkdir 'out püt'
write_blocks "$one_blocks"
write_jobs "a $one_job"
mv blocks.car 'blöcke 1.car'
run jobs --blocks 'blöcke 1.car' --jobs ./jobs.txt --out 'out püt/'
expect 0 "a $one_line
total jobs=1 done=1 skips=0" ''
expect_bytes 'out püt/a.car' "$one_archive"
