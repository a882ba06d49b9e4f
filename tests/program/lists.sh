# Have-lists: `--without-list` leaves out what is listed, trusted as given, and `inspect --cids` prints a list.

# with_list TITLE LINE..: a case with the blocks of the list of one link, and a have-list of these lines.
with_list() {
  begin "a have-list: $1"
  write_blocks "$one_blocks"
  printf '%s\n' "${@:2}" >list.txt
}
get_listed=(get --root "$one_text" --blocks blocks.car --without-list list.txt)

with_list 'each subset of the blocks listed' "# what the peer has"
run "${get_listed[@]}"
differs 0 "$one_blocks"
printf '%s\n' "$abc_text" >list.txt
run "${get_listed[@]}"
differs 1 "$sound_one"
printf '%s\n' "$one_text" >list.txt
run "${get_listed[@]}" --every-arrival
differs 1 "$sound_abc"
printf '%s\n' "$one_text" "$abc_text" "$one_text" >list.txt
run "${get_listed[@]}"
differs 2 ''

with_list 'empty lines, comments, carriage returns, and a last line without an end'
printf '\n\r\n# \x80\xff\r\n#%s\n%s\r' "$one_text" "$abc_text" >list.txt
run "${get_listed[@]}"
differs 1 "$sound_one"
: >list.txt
run "${get_listed[@]}"
differs 0 "$one_blocks"

with_list 'what is no block of the file is of no account' "$(text "$empty_cid")" "$(text "$(raw_inline "$abc")")" "$abc_text" \
  "$(text 0170120100)"
run "${get_listed[@]}"
differs 1 "$sound_one"

with_list 'a list and a base add up' "$abc_text"
bytes "$no_roots" "$sound_one" >base.car
run "${get_listed[@]}" --without base.car
differs 2 ''

with_list 'it is trusted: a base would be hashed' "$abc_text"
bytes "$no_roots" "$damaged_abc" >base.car
run "${get_listed[@]}" --without base.car
differs 1 "$sound_one"

with_list 'a listed block that is damaged here is skipped' "$abc_text"
write_blocks "$sound_one" "$damaged_abc"
run "${get_listed[@]}"
got 3 "get done visits=2 kept=2 sections=1 bytes=138 known=0
  1 damaged $abc_text
total jobs=1 done=1 skips=1" "$(header "$one_cid")" "$sound_one"

with_list 'jobs' "$abc_text"
write_jobs "a $one_job" "b $(text "$abc_cid") 9 $all"
run jobs --blocks blocks.car --jobs jobs.txt --out out --without-list list.txt
expect 0 "a done visits=2 kept=2 sections=1 bytes=138 known=1
b done visits=1 kept=1 sections=0 bytes=59 known=1
total jobs=2 done=2 skips=0" ''
expect_bytes out/a.car "$(header "$one_cid")" "$sound_one"
expect_bytes out/b.car "$(header "$abc_cid")"

# wrong_list KIND NUMBER [WORDS]: the error of a list, with what is wrong with the line, in the forms of `jobs` and `get`, and no
# output.
wrong_list() {
  local cause=${3:+$3; }'a line is a CIDv1 in base32, as ix_export inspect --cids prints it'
  write_jobs "a $one_job"
  run jobs --blocks blocks.car --jobs jobs.txt --out out --without-list list.txt
  refused "known: $1 at line $2"
  run jobs --blocks blocks.car --jobs jobs.txt --out out --without-list list.txt --verbose
  refused "known: $1 at line $2
$cause"
  run "${get_listed[@]}" --out out/a.car
  refused "known: $1 at line $2: $cause"
  expect_folder out
}

# not_listed LINE WORDS: a line that isn't the base32 of a CIDv1, and what is wrong with it.
not_listed() {
  with_list "no CID: $1" "$1"
  wrong_list cid 1 "$2"
}

no_base32='not base32: after b come a to z and 2 to 7, in lower case'
with_list 'a line that is no CID, after lines that are ignored' '' '# two' "$abc_text" 'bafy' "$abc_text,"
wrong_list cid 4 'a CID that ends early'
not_listed "${abc_text^^}" "base32 in upper case, expected lower case, beginning with b: $abc_text"
not_listed "F${abc_cid^^}" "hex, expected base32 beginning with b: $abc_text"
not_listed "z${abc_text#b}" 'base58, expected base32 beginning with b'
not_listed "v0-1220$(digest "$abc")" 'hex of a CIDv0, which names UnixFS, expected a CIDv1 in base32 beginning with b'
not_listed "$(text "1220$(digest "$abc")")" 'a CID of another version than 1'
not_listed "${abc_text}aa" 'a CID with more after it'
for line in "$abc_text $abc_text" "$abc_text," "$abc_text "; do not_listed "$line" "$no_base32"; done
not_listed " $abc_text" 'not a CID, expected a CIDv1 in base32, beginning with b'
with_list 'a byte that is no text' "$abc_text" $'\t'
wrong_list text 2
with_list 'a byte order mark' $'\xef\xbb\xbf'"$abc_text"
wrong_list text 1

with_list 'in standard input' "$abc_text"
run get --root "$one_text" --blocks blocks.car --without-list - <list.txt
differs 1 "$sound_one"
bytes "$no_roots" "$sound_abc" >base.car
# twice_input OPTION OPTION WORD..: standard input is given for both options.
twice_input() {
  run "${@:3}" </dev/null
  expect_text 'exit status' 2 "$status"
  expect_text 'the first line' "error: standard input is given for '--$1 <FILE>' and for '--$2 <FILE>'" \
    "$(head -n 1 "$scratch/stderr")"
}
twice_input blocks without-list get --root "$one_text" --blocks - --without-list -
twice_input without without-list get --root "$one_text" --blocks blocks.car --without - --without-list -
twice_input without-list jobs jobs --jobs - --out out --blocks blocks.car --without-list -
twice_input without jobs jobs --jobs - --out out --blocks blocks.car --without -
twice_input blocks jobs jobs --jobs - --out out --blocks -

with_list 'that can not be read, or is an output' "$abc_text"
run get --root "$one_text" --blocks blocks.car --without-list none.txt --out out/a.car
refused 'cannot read none.txt: No such file or directory (os error 2)'
run "${get_listed[@]}" --out list.txt
expect_text 'exit status' 2 "$status"
expect_text 'the list' "$abc_text" "$(cat list.txt)"

# Sections with a CIDv0 and an identity CID have no line; a repeated CID has one each time.
begin 'inspect --cids: the list of what a file has'
bytes "$no_roots" "$sound_abc" "$(section "1220$(digest "$abc")" "$abc")" "$(section "$(raw_inline "$abc")" "$abc")" \
  "$(section "$abc_512_cid" "$abc")" "$sound_abc" "$(section 0181029a0101ff '')" >base.car
run inspect --cids base.car
expect 0 "$abc_text
$(text "$abc_512_cid")
$abc_text
$(text 0181029a0101ff)" ''
write_blocks "$one_blocks"
run get --root "$one_text" --blocks blocks.car --without-list - < <("$program" inspect --cids base.car)
differs 1 "$sound_one"
write_blocks
run inspect --cids blocks.car
expect 0 '' ''
run inspect --cids --list blocks.car
expect_text 'exit status' 2 "$status"
bytes 00ff >file
run inspect --cids file
refused 'file: header at 0: not a CARv1 file'
