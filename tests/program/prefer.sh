# `--prefer-sound`: of the copies of a block, in one file or in several, the first that is sound counts.

# The list of one link and the block `abc`, each sound and damaged.
sound_one=$(section "$one_cid" "$one")
sound_abc=$(section "$abc_cid" "$abc")
damaged_one=$(section "$one_cid" "${one%??}00")
damaged_abc=$(section "$abc_cid" 616264)
skipped_report="get done visits=2 kept=2 sections=1 bytes=138
  1 damaged $abc_text
total jobs=1 done=1 skips=1"
skipped_archive=$(header "$one_cid")$sound_one
one_later='note: 1 block from a later copy'

# preferred TITLE: a case with two damaged replicas, each with the block that is damaged in the other.
preferred() {
  begin "sound copies: $1"
  bytes "$no_roots" "$sound_one" "$damaged_abc" >a.car
  bytes "$no_roots" "$damaged_one" "$sound_abc" >b.car
}
get_sound=(get --root "$one_text" --prefer-sound)

preferred 'two damaged replicas make a whole archive, in either order, for get and jobs'
run "${get_sound[@]}" --blocks a.car --blocks b.car
got 0 "$get_report
$one_later" "$one_archive"
run "${get_sound[@]}" --blocks b.car --blocks a.car
got 0 "$get_report
$one_later" "$one_archive"
run "${get_sound[@]}" --blocks a.car --blocks b.car --out out/get.car --quiet
expect 0 '' "$one_later"
expect_bytes out/get.car "$one_archive"
write_jobs "a $one_job"
for part in '' '--part 1/1'; do
  run jobs --blocks a.car --blocks b.car --jobs jobs.txt --out out --prefer-sound $part
  expect 0 "a $one_line
total jobs=1 done=1 skips=0" "$one_later"
  expect_bytes out/a.car "$one_archive"
done

preferred 'without the option the first copy counts'
run "${get_of[@]}" --blocks a.car --blocks b.car
got 3 "$skipped_report" "$skipped_archive"

preferred 'in one file, damaged then sound, and sound then damaged'
write_blocks "$sound_one" "$damaged_abc" "$sound_abc"
run "${get_sound[@]}" --blocks blocks.car
got 0 "$get_report
$one_later" "$one_archive"
run "${get_of[@]}" --blocks blocks.car
got 3 "$skipped_report" "$skipped_archive"
write_blocks "$sound_one" "$sound_abc" "$damaged_abc"
run "${get_sound[@]}" --blocks blocks.car
got 0 "$get_report" "$one_archive"

preferred 'each block that is a later copy is counted once'
write_blocks "$damaged_one" "$damaged_abc" "$(section "$abc_cid" 616265)" "$sound_abc" "$sound_one" "$sound_abc"
run "${get_sound[@]}" --blocks blocks.car
got 0 "$get_report
note: 2 blocks from a later copy" "$one_archive"

preferred 'the first copy counts if none is sound'
write_blocks "$sound_one" "$damaged_abc" "$(section "$abc_cid" 616265)"
run "${get_sound[@]}" --blocks blocks.car
got 3 "$skipped_report" "$skipped_archive"
run "${get_of[@]}" --blocks blocks.car
got 3 "$skipped_report" "$skipped_archive"

preferred 'nothing changes if all copies are sound'
write_blocks "$one_blocks" "$one_blocks"
run "${get_sound[@]}" --blocks blocks.car --blocks blocks.car
got 0 "$get_report" "$one_archive"

preferred 'a section under an identity CID is no damaged copy, whatever its bytes'
write_blocks "$(section "$(raw_inline "$abc")" 616264)" "$(section "$(raw_inline "$abc")" "$abc")" "$one_blocks"
run "${get_sound[@]}" --blocks blocks.car
got 0 "$get_report" "$one_archive"

preferred 'one of the files is standard input'
run "${get_sound[@]}" --blocks a.car --blocks - <b.car
got 0 "$get_report
$one_later" "$one_archive"

preferred 'a run that is rejected has one line'
write_jobs 'no job'
run jobs --blocks a.car --blocks b.car --jobs jobs.txt --out out --prefer-sound
expect_text 'exit status' 2 "$status"
expect_text 'lines of standard error' 1 "$(wc -l <"$scratch/stderr")"
expect_folder out
