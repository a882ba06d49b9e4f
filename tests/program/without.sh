# `--without`: the archive leaves out each block of which the receiver has a sound copy, and all else is as it is without.

# The list of one link and the block `abc`, each sound and damaged; a list of three links to `abc`.
sound_one=$(section "$one_cid" "$one")
sound_abc=$(section "$abc_cid" "$abc")
damaged_abc=$(section "$abc_cid" 616264)
thrice=83$(link "$abc_cid")$(link "$abc_cid")$(link "$abc_cid")
thrice_cid=$(cbor "$thrice")

# without_base TITLE HEX..: a case with the blocks of the list of one link, and a base with these sections.
without_base() {
  begin "a difference: $1"
  write_blocks "$one_blocks"
  bytes "$no_roots" "${@:2}" >base.car
}
get_new=(get --root "$one_text" --blocks blocks.car --without base.car)

# differs KNOWN HEX: what `get` gives, with so many known blocks and these sections.
differs() {
  local archive=$(header "$one_cid")$2
  got 0 "get done visits=2 kept=2 sections=$((2 - $1)) bytes=$((${#archive} / 2)) known=$1
total jobs=1 done=1 skips=0" "$archive"
}

without_base 'each subset of the blocks known'
run "${get_new[@]}"
differs 0 "$one_blocks"
bytes "$no_roots" "$sound_abc" >base.car
run "${get_new[@]}"
differs 1 "$sound_one"
bytes "$no_roots" "$sound_one" >base.car
run "${get_new[@]}" --every-arrival
differs 1 "$sound_abc"
bytes "$no_roots" "$sound_one" "$sound_abc" >base.car
run "${get_new[@]}"
differs 2 ''

without_base 'a base that is the blocks, and a known root: the archive has the header alone, and gets its name' "$sound_one"
run get --root "$one_text" --blocks blocks.car --without blocks.car --out out/a.car
expect 0 '' "get done visits=2 kept=2 sections=0 bytes=59 known=2
total jobs=1 done=1 skips=0"
expect_bytes out/a.car "$(header "$one_cid")"
expect_folder out a.car

without_base 'the first copy in all files decides' "$damaged_abc" "$sound_abc"
run "${get_new[@]}"
differs 0 "$one_blocks"
bytes "$no_roots" "$sound_abc" "$damaged_abc" >base.car
run "${get_new[@]}"
differs 1 "$sound_one"
bytes "$no_roots" "$damaged_abc" >first.car
run get --root "$one_text" --blocks blocks.car --without first.car --without base.car
differs 0 "$one_blocks"
run get --root "$one_text" --blocks blocks.car --without base.car --without first.car
differs 1 "$sound_one"

without_base 'what is no block of the job is of no account' "$(section "$(raw_inline "$abc")" "$abc")" "$(section 0170120100 "$abc")" \
  "$(section "$(raw 00)" 00)" "$(section "$(raw 01)" 01)"
run "${get_new[@]}"
differs 0 "$one_blocks"

without_base 'a block that is damaged here is skipped, although the receiver has it' "$sound_abc"
write_blocks "$sound_one" "$damaged_abc"
run "${get_new[@]}"
got 3 "get done visits=2 kept=2 sections=1 bytes=138 known=0
  1 damaged $abc_text
total jobs=1 done=1 skips=1" "$(header "$one_cid")" "$sound_one"

without_base 'a block with many links to it is known once' "$sound_abc"
write_blocks "$(section "$thrice_cid" "$thrice")" "$sound_abc"
archive=$(header "$thrice_cid")$(section "$thrice_cid" "$thrice")
run get --root "$(text "$thrice_cid")" --blocks blocks.car --without base.car
got 0 "get done visits=4 kept=4 sections=1 bytes=$((${#archive} / 2)) known=1
total jobs=1 done=1 skips=0" "$archive"

without_base 'each job counts for itself, and nothing is kept from one to the next' "$sound_abc"
write_jobs "a $one_job" "b $one_job" "c $(text "$abc_cid") 9 $all"
run jobs --blocks blocks.car --jobs jobs.txt --out out --without base.car
expect 0 "a done visits=2 kept=2 sections=1 bytes=138 known=1
b done visits=2 kept=2 sections=1 bytes=138 known=1
c done visits=1 kept=1 sections=0 bytes=59 known=1
total jobs=3 done=3 skips=0" ''
expect_bytes out/a.car "$(header "$one_cid")" "$sound_one"
expect_bytes out/b.car "$(header "$one_cid")" "$sound_one"
expect_bytes out/c.car "$(header "$abc_cid")"
run jobs --blocks blocks.car --jobs jobs.txt --out out --without base.car --part 3/3 --once
expect 0 "c done visits=1 kept=1 sections=0 bytes=59 known=1
total jobs=1 done=1 skips=0" ''

without_base 'the difference and the base restore the whole, and are sound beside each other' "$sound_abc"
run "${get_new[@]}" --out diff.car
run get --root "$one_text" --blocks diff.car --blocks base.car
got 0 "$get_report" "$one_archive"
run verify diff.car --with base.car
expect 0 'diff.car sound sections=1 bytes=138' ''

without_base 'a base in standard input, and a CARv2 base' "$sound_abc"
run get --root "$one_text" --blocks blocks.car --without - <base.car
differs 1 "$sound_one"
run get --root "$one_text" --blocks - --without - <base.car
expect_text 'exit status' 2 "$status"
expect_text 'the first line' "error: standard input is given for '--blocks <FILE>' and for '--without <FILE>'" "$(head -n 1 "$scratch/stderr")"

without_base 'a base that is rejected: one line, and no output' "$sound_abc"
write_jobs "a $one_job"
bytes "$no_roots" 2701551220ba7816bf8f >cut.car
run jobs --blocks blocks.car --jobs jobs.txt --out out --without cut.car
refused 'blocks: truncated at 18 in cut.car'
run jobs --blocks blocks.car --jobs jobs.txt --out out --without none.car
refused 'cannot read none.car'
run get --root "$one_text" --blocks blocks.car --without none.car --out out/a.car
refused 'cannot read none.car: No such file or directory (os error 2)'
expect_folder out

without_base 'a file that is also an output' "$sound_abc"
run get --root "$one_text" --blocks blocks.car --without base.car --out base.car
expect_text 'exit status' 2 "$status"
expect_bytes base.car "$no_roots" "$sound_abc"
