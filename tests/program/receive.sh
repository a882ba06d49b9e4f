# The command `receive`: a stream against what was asked for, section by section as it comes.

# The archive of the list of one link is a header of 59 bytes, a section of 79 and one of 40; that of the fork has sections of
# 120, 80, 40 and 79 bytes.
fork_text=$(text "$fork_cid")
zero_text=$(text "$with_zero_cid")
empty_text=$(text "$empty_cid")
fork_parts=("$(section "$fork_cid" "$fork")" "$(section "$with_zero_cid" "$with_zero")" "$(section "$abc_cid" "$abc")" "$(section "$one_cid" "$one")")
foreign_part=$(section "$empty_cid" '')
receive_one=(receive --root "$one_text" --out out/a.car)
received_one="receive $one_line
total jobs=1 done=1 skips=0"

# rejected BYTES LINE: status 4, one line, no FILE, and a part with the first so many bytes of input.car.
rejected() {
  expect 4 '' "$2"
  expect_folder out a.car.part
  head -c "$1" input.car >wanted.part
  expect_same out/a.car.part wanted.part out/a.car.part
  rm out/a.car.part
}

begin 'receive: from a file and from standard input, to a file and to a pipe'
bytes "$one_archive" >input.car
run "${receive_one[@]}" input.car
expect 0 '' "$received_one"
expect_folder out a.car
expect_bytes out/a.car "$one_archive"
for input in '' -; do
  rm out/a.car
  run "${receive_one[@]}" --no-sync $input <input.car
  expect 0 '' "$received_one"
  expect_bytes out/a.car "$one_archive"
done
run receive --root "$one_text" --out - input.car
expect_text 'exit status' 0 "$status"
expect_lines 'standard error' "$received_one" "$scratch/stderr"
expect_same 'standard output' input.car "$scratch/stdout"
run "${receive_one[@]}" --quiet <input.car
expect 0 '' ''

# What `get` reports of a part of the example without skips is what `receive` reports of it.
begin 'receive: parts of the example through a pipe'
part_words=("--root $library_root/notes/today" "--root $library_root/album/photos/0" "--root $library_root/album --scope block"
  "--root $library_root --selector {\".\":{}}" "--root $library_root --selector-hex $matcher"
  "--root $library_root,$library_root --scope block")
for words in "${part_words[@]}"; do
  status=0
  "$program" get --blocks "$top/examples/library.car" $words --out - 2>told | tee input.car |
    "$program" receive $words --out out/a.car 2>"$scratch/stderr" || status=$?
  expect 0 '' "$(sed 's/^get /receive /; /^note/d' told)"
  expect_same out/a.car input.car out/a.car
done
run get --blocks "$top/examples/library.car" --root $library_root --out input.car
run receive --root $library_root --out out/b.car input.car
expect 4 '' 'input.car: missing at 595: expected bafkreicvu5tadnk56ygcnwaxi64ebd6ceqz65dzz5jwguqrnc3hi2s2hxi, and bafyreiba4bgu3t2znasd3gpb5ud3fojceen4lylgpjp644afvp2bi4qd7u came'
run receive --root $library_root --out out/b.car --allow-missing raw input.car
expect 0 '' 'receive done visits=10 kept=10 sections=6 bytes=784 absent=2
total jobs=1 done=1 skips=0'
expect_same out/b.car "$top/examples/expected/whole.car" out/b.car

# received_fork PART..: receives these sections after the header of the fork.
received_fork() {
  bytes "$(header "$fork_cid")" "$@" >input.car
  run receive --root "$fork_text" --out out/a.car input.car $allowing
}
# expected_at PLACE WANTED CAME: another section came, or the stream ends.
expected_at() {
  if [ -n "$3" ]; then
    rejected "$1" "input.car: missing at $1: expected $2, and $3 came"
  else
    rejected "$1" "input.car: missing at $1: expected $2, and the stream ends"
  fi
}

begin 'receive: each section left out, doubled, swapped with the next, and one that nobody asked for'
allowing=
texts=("$fork_text" "$zero_text" "$abc_text" "$one_text" '')
places=(59 179 259 299 378)
received_fork "${fork_parts[@]}"
expect 0 '' 'receive done visits=5 kept=5 sections=4 bytes=378
total jobs=1 done=1 skips=0'
rm out/a.car
for number in 0 1 2 3; do
  before=("${fork_parts[@]:0:number}") part=${fork_parts[number]} after=("${fork_parts[@]:number+1}")
  received_fork "${before[@]}" "${after[@]}"
  expected_at "${places[number]}" "${texts[number]}" "${texts[number + 1]}"
  received_fork "${before[@]}" "${after[@]}" "$part"
  if [ $number -lt 3 ]; then
    expected_at "${places[number]}" "${texts[number]}" "${texts[number + 1]}"
  else
    expect_text 'exit status' 0 "$status"
    rm out/a.car
  fi
  received_fork "${before[@]}" "$part" "$part" "${after[@]}"
  rejected "${places[number + 1]}" "input.car: repeated at ${places[number + 1]}: ${texts[number]}: it came before; ask for dups=n"
  if [ $number -lt 3 ]; then
    received_fork "${before[@]}" "${after[0]}" "$part" "${after[@]:1}"
    expected_at "${places[number]}" "${texts[number]}" "${texts[number + 1]}"
  fi
  received_fork "${before[@]}" "$foreign_part" "$part" "${after[@]}"
  expected_at "${places[number]}" "${texts[number]}" "$empty_text"
done
received_fork "${fork_parts[@]}" "$foreign_part"
rejected 378 "input.car: surplus at 378: $empty_text: it isn't asked for"

begin 'receive: what may be missing, and what comes where it was missing'
allowing='--allow-missing all'
received_fork "${fork_parts[@]:0:3}"
expect 0 '' 'receive done visits=4 kept=4 sections=3 bytes=299 absent=1
total jobs=1 done=1 skips=0'
rm out/a.car
received_fork "${fork_parts[0]}" "${fork_parts[@]:2}"
rejected 179 "input.car: surplus at 179: $abc_text: it isn't asked for"
received_fork "${fork_parts[0]}" "${fork_parts[3]}" "${fork_parts[2]}" "${fork_parts[1]}"
rejected 298 "input.car: order at 298: $zero_text: it was missing where it was expected first"
received_fork "${fork_parts[@]:1}"
expected_at 59 "$fork_text" "$zero_text"
allowing='--allow-missing raw'
received_fork "${fork_parts[0]}" "${fork_parts[1]}" "${fork_parts[3]}"
expect 0 '' 'receive done visits=5 kept=5 sections=3 bytes=338 absent=2
total jobs=1 done=1 skips=0'
rm out/a.car
received_fork "${fork_parts[@]:0:3}"
expected_at 299 "$one_text" ''

begin 'receive: --paths lists what is absent, each link by itself'
# The visits of the fork: itself, its first list at 0, `abc` at 0/0, its second list at 1, and `abc` at 1/0.
with_path() {
  printf '{"visit":%s,"verdict":"%s","cid":"%s","path":"%s"}' "$@"
}
allowing='--allow-missing raw --paths'
received_fork "${fork_parts[0]}" "${fork_parts[1]}" "${fork_parts[3]}"
expect 0 '' "receive done visits=5 kept=5 sections=3 bytes=338 absent=2
  2 missing $abc_text $fork_text/0/0
  4 missing $abc_text $fork_text/1/0
total jobs=1 done=1 skips=0"
received_fork "${fork_parts[@]}"
expect 0 '' 'receive done visits=5 kept=5 sections=4 bytes=378 absent=0
total jobs=1 done=1 skips=0'
allowing='--allow-missing all --paths --json'
received_fork "${fork_parts[0]}"
expect 0 '' "{\"job\":\"receive\",\"end\":\"done\",\"visits\":3,\"kept\":3,\"sections\":1,\"bytes\":179,\"absent\":2,\"file\":\"out/a.car\",\"skips\":[$(with_path 1 missing "$zero_text" "$fork_text/0"),$(with_path 2 missing "$one_text" "$fork_text/1")]}
{\"total\":{\"jobs\":1,\"done\":1,\"skips\":0}}"
rm out/a.car

# A list of links to an identity CID, a CID of another codec, and `abc`.
mixed=83$(link "$(cbor_inline 80)")$(link "01701220$(digest 0a)")$(link "$abc_cid")
mixed_cid=$(cbor "$mixed")
mixed_part=$(section "$mixed_cid" "$mixed")
bytes "$(header "$mixed_cid")" "$mixed_part" >input.car
run receive --root "$(text "$mixed_cid")" --allow-missing raw --paths --out out/a.car input.car
mixed_text=$(text "$mixed_cid")
foreign_text=$(text "01701220$(digest 0a)")
mixed_json="\"visits\":4,\"kept\":4,\"sections\":1,\"bytes\":$((59 + ${#mixed_part} / 2)),\"absent\":1,"
mixed_counts="visits=4 kept=4 sections=1 bytes=$((59 + ${#mixed_part} / 2)) absent=1"
expect 3 '' "receive done $mixed_counts
  2 codec $foreign_text $mixed_text/1
  3 missing $abc_text $mixed_text/2
total jobs=1 done=1 skips=1"

# What `get` reports of the links that it doesn't read, `receive` reports of its archive.
begin 'receive: links of another codec are skips, which --whole does not take'
bytes "$(header "$mixed_cid")" "$mixed_part" >input.car
receive_mixed=(receive --root "$mixed_text" --allow-missing raw --out out/a.car input.car)
mixed_report="receive done $mixed_counts
  2 codec $foreign_text
total jobs=1 done=1 skips=1"
run "${receive_mixed[@]}"
expect 3 '' "$mixed_report"
run get --blocks input.car --root "$mixed_text" --allow-missing raw --out out/b.car
expect 3 '' "${mixed_report/receive/get}"
expect_same out/a.car out/b.car out/a.car
run "${receive_mixed[@]}"
expect 3 '' "warning: out/a.car replaced an existing file: 1 link was skipped
$mixed_report"
run "${receive_mixed[@]}" --json
expect 3 '' "warning: out/a.car replaced an existing file: 1 link was skipped
{\"job\":\"receive\",\"end\":\"done\",${mixed_json}\"file\":\"out/a.car\",\"skips\":[{\"visit\":2,\"verdict\":\"codec\",\"cid\":\"$foreign_text\"}]}
{\"total\":{\"jobs\":1,\"done\":1,\"skips\":1}}"
bytes ff >out/a.car
run "${receive_mixed[@]}" --whole
expect 4 '' "left out/a.car.part: 1 link was skipped
$mixed_report"
expect_bytes out/a.car ff
expect_same out/a.car.part out/b.car out/a.car.part

begin 'receive: a header alone for a root that is not read'
# unread_root WORD CID WHY: such a root, alone, and after another root that is there.
unread_root() {
  bytes "$(header "$2")" >input.car
  bytes "$one_archive" >out/a.car
  run receive --root "$(text "$2")" --out out/a.car input.car
  expect 4 '' "input.car: $1 at $(wc -c <input.car): the root $(text "$2"): $3"
  expect_bytes out/a.car "$one_archive"
  expect_same out/a.car.part input.car out/a.car.part
  bytes "$(header "$one_cid" "$2")" "$one_blocks" >input.car
  run receive --root "$one_text,$(text "$2")" --out out/a.car input.car
  expect 4 '' "input.car: $1 at $(wc -c <input.car): the root $(text "$2"): $3"
  expect_bytes out/a.car "$one_archive"
  rm out/*
}
unread_root codec "01701220$(digest "$abc")" 'its codec is neither raw nor DAG-CBOR'
bytes "$(header "1220$(digest "$abc")")" >input.car
run receive --root QmatYkNGZnELf8cAGdyJpUca2PyY4szai3RHyyWofNY1pY --out out/a.car input.car
expect 4 '' "input.car: codec at $(wc -c <input.car): the root v0-1220$(digest "$abc"): its codec is neither raw nor DAG-CBOR"
rm out/*
unread_root hash "01551e20$(digest "$abc")" 'its hash is neither SHA-256, SHA-512 nor identity'
unread_root malformed "$(cbor_inline ff)" "its inline bytes aren't DAG-CBOR"
bytes "$(header "$(cbor_inline 80)")" >input.car
run receive --root "$(text "$(cbor_inline 80)")" --out out/a.car input.car
expect_text 'exit status' 0 "$status"

begin 'receive: --paths says where a stream stopped'
allowing=--paths
received_fork "${fork_parts[@]:1}"
rejected 59 "input.car: missing at 59: expected $fork_text, and $zero_text came
  0 missing $fork_text $fork_text"
received_fork "${fork_parts[0]}" "${fork_parts[3]}"
rejected 179 "input.car: missing at 179: expected $zero_text, and $one_text came
  1 missing $zero_text $fork_text/0"
received_fork "${fork_parts[@]:0:2}"
rejected 259 "input.car: missing at 259: expected $abc_text, and the stream ends
  2 missing $abc_text $fork_text/0/0"
received_fork "${fork_parts[@]:0:2}" "$(section "$abc_cid" 616264)"
rejected 259 "input.car: damaged at 259: $abc_text
  2 damaged $abc_text $fork_text/0/0"
received_fork "${fork_parts[@]:0:3}" "${fork_parts[2]}"
rejected 299 "input.car: repeated at 299: $abc_text: it came before; ask for dups=n
  2 repeated $abc_text $fork_text/0/0"
received_fork "${fork_parts[@]}" "${fork_parts[2]}"
rejected 378 "input.car: repeated at 378: $abc_text: it came before; ask for dups=n
  2 repeated $abc_text $fork_text/0/0"
received_fork "${fork_parts[@]}" "$foreign_part"
rejected 378 "input.car: surplus at 378: $empty_text: it isn't asked for"
allowing='--paths --allow-missing all'
received_fork "${fork_parts[0]}" "${fork_parts[3]}" "${fork_parts[2]}" "${fork_parts[1]}"
rejected 298 "input.car: order at 298: $zero_text: it was missing where it was expected first
  1 order $zero_text $fork_text/0"
allowing='--paths --json'
received_fork "${fork_parts[0]}" "${fork_parts[3]}"
expect 4 '' "input.car: missing at 179: expected $zero_text, and $one_text came
{\"job\":\"receive\",\"end\":\"rejected\",\"sections\":1,\"bytes\":179,\"part\":\"out/a.car.part\",\"part_bytes\":179,\"fault\":{\"place\":179,\"reason\":\"missing\",\"cid\":\"$one_text\",\"expected\":\"$zero_text\",\"visit\":1,\"path\":\"$fork_text/0\"}}
{\"total\":{\"jobs\":1,\"done\":0,\"skips\":0}}
{\"error\":\"missing\",\"message\":\"input.car: missing at 179: expected $zero_text, and $one_text came\",\"cid\":\"$zero_text\"}"
rm out/a.car.part

begin 'receive: sections that are not sound, and of another codec or hash'
refused_part() {
  bytes "$(header "$one_cid")" "$(section "$one_cid" "$one")" "$2" "$(section "$abc_cid" "$abc")" >input.car
  run "${receive_one[@]}" input.car
  rejected 138 "input.car: $1 at 138: $3"
}
refused_part damaged "$(section "$abc_cid" 616264)" "$abc_text"
refused_part codec "$(section "01701220$(digest "$abc")" "$abc")" "$(text "01701220$(digest "$abc")")"
refused_part hash "$(section 01551202ba78 "$abc")" "$(text 01551202ba78)"
refused_part malformed "$(section "$(cbor 1805)" 1805)" "$(text "$(cbor 1805)")"
refused_part inline "$(section "$(raw_inline "$abc")" "$abc")" "$(text "$(raw_inline "$abc")")"

begin 'receive: a stream that is cut'
# cut_at PLACE: receives the first so many bytes.
cut_at() {
  bytes "${one_archive:0:$1 * 2}" >input.car
  run "${receive_one[@]}" input.car
}
for place in 1 2 58; do
  cut_at $place
  rejected 0 'input.car: truncated at 0: the stream ends within a header'
done
cut_at 59
expected_at 59 "$one_text" ''
for place in 60 61 137; do
  cut_at $place
  rejected 59 'input.car: truncated at 59: the stream ends within a section'
done
cut_at 138
expected_at 138 "$abc_text" ''
cut_at 177
rejected 138 'input.car: truncated at 138: the stream ends within a section'

begin 'receive: lengths that lie'
bytes "$(header "$one_cid")" 808080808080808080808001 >input.car
run "${receive_one[@]}" input.car
rejected 59 'input.car: varint at 59: not the length of a section'
bytes "$(header "$one_cid")" 00 "$one_blocks" >input.car
run "${receive_one[@]}" input.car
rejected 59 "input.car: cid at 59: the section doesn't begin with a CID"
bytes "$(varint $((32 * 1024 * 1024 + 1)))" >input.car
run "${receive_one[@]}" input.car
refused 'input.car: header at 0: a header of 33554433 bytes, and a CARv1 file has at most 32 MiB'
bytes ffffffffffffffff7f >input.car
run "${receive_one[@]}" input.car
refused 'input.car: header at 0: a header of 9223372036854775807 bytes, and a CARv1 file has at most 32 MiB'
expect_folder out

begin 'receive: another header'
other_header='header at 0: another header than that of the roots; --any-header accepts any'
for roots in "$abc_cid" "$one_cid $one_cid" ''; do
  bytes "$(header $roots)" "$one_blocks" >input.car
  run "${receive_one[@]}" input.car
  rejected 0 "input.car: $other_header"
  run "${receive_one[@]}" input.car --any-header --quiet
  expect 0 '' ''
  expect_same out/a.car input.car out/a.car
  rm out/a.car
done
bytes "$(with_length a3616101 65726f6f747381 "$(link "$one_cid")" 6776657273696f6e01)$one_blocks" >input.car
run "${receive_one[@]}" input.car
rejected 0 "input.car: $other_header"
roots=()
for _ in $(seq 1000); do roots+=("$one_cid"); done
bytes "$(header "${roots[@]}")" "$one_blocks" >input.car
run "${receive_one[@]}" input.car
rejected 0 "input.car: $other_header"

begin 'receive: what is no CARv1 file'
bytes "$(carv2 51 178 0 '' "$one_archive")" >two.car
printf 'what a page of a gateway says, in more letters than the first of them has as its number, which is one hundred and nineteen.\n' >page.txt
printf '{"error":"no such block, said in more letters than the first of them has as its number, which is one hundred and twenty-three"}' >error.json
bytes "$one_archive" | gzip >a.gz
: >empty
run "${receive_one[@]}" two.car
refused 'two.car: version 2 at 0: a CARv2 file; a stream is the CARv1 in it'
run "${receive_one[@]}" page.txt
refused 'page.txt: header at 0: plain text'
run "${receive_one[@]}" error.json
refused 'error.json: header at 0: JSON'
run "${receive_one[@]}" <a.gz
refused '-: header at 0: compressed by gzip'
run "${receive_one[@]}" empty
refused 'empty: truncated at 0: an empty file'
run "${receive_one[@]}" none.car
refused 'cannot read none.car: No such file or directory (os error 2)'
run "${receive_one[@]}" .
refused 'cannot read .: Is a directory (os error 21)'
run "${receive_one[@]}" <&-
refused 'cannot read -: Bad file descriptor (os error 9)'
expect_folder out

# The sections of the archive have lengths of 78 and 39.
begin 'receive: sections of more bytes than --max-block'
bytes "$one_archive" >input.car
run "${receive_one[@]}" input.car --max-block 78 --quiet
expect 0 '' ''
rm out/a.car
run "${receive_one[@]}" input.car --max-block 77
rejected 59 'input.car: length at 59: a section of 78 bytes, more than --max-block allows'
head -c 60 input.car >cut.car
mv cut.car input.car
run "${receive_one[@]}" input.car --max-block 77
rejected 59 'input.car: length at 59: a section of 78 bytes, more than --max-block allows'
bytes "$(header "$one_cid")" "$(varint $((8 * 1024 * 1024 + 1)))" >input.car
run "${receive_one[@]}" input.car
rejected 59 'input.car: length at 59: a section of 8388609 bytes, more than --max-block allows'
run "${receive_one[@]}" input.car --max-block 9M
rejected 59 'input.car: truncated at 59: the stream ends within a section'

begin 'receive: --limit'
bytes "$one_archive" >input.car
run "${receive_one[@]}" input.car --limit 2 -q
expect 0 '' ''
rm out/a.car
run "${receive_one[@]}" input.car --limit 1
rejected 138 "input.car: limit at 138: $abc_text: more links than --limit allows"
head -c 138 input.car >cut.car
mv cut.car input.car
run "${receive_one[@]}" input.car --limit 1 --allow-missing raw
rejected 138 'input.car: limit at 138: the end: more links than --limit allows'

# A FIFO of which the first bytes come, and the others only once what they complete was written.
begin 'receive: what has come is written before the rest comes'
bytes "$one_archive" >input.car
mkfifo fifo
# size_is BYTES FILE: waits until the file has so many bytes, and not for ever.
size_is() {
  for _ in $(seq 1000); do
    [ "$(stat -c %s "$2" 2>/dev/null)" != "$1" ] || return 0
    sleep 0.01
  done
  fail "size of $2, which is to be $1" /dev/null "$2"
}
for out in out/a.car -; do
  run_bare receive --root "$one_text" --out $out fifo >"$scratch/stdout" 2>"$scratch/stderr" &
  exec 7>fifo
  case $out in -) file=$scratch/stdout ;; *) file=$out.part ;; esac
  head -c 100 input.car >&7
  size_is 59 "$file"
  tail -c +101 input.car | head -c 38 >&7
  size_is 138 "$file"
  sleep 1
  size_is 138 "$file"
  tail -c +139 input.car >&7
  exec 7>&-
  wait $! || fail "status of a stream that stops" /dev/null "$scratch/stderr"
  case $out in -) ;; *) file=$out ;; esac
  expect_same "$file" input.car "$file"
done

begin 'receive: a section that nobody asked for ends a stream without an end'
status=0
{ bytes "$(header "$one_cid")" "$foreign_part" && cat /dev/zero; } 2>/dev/null |
  "$program" "${receive_one[@]}" >"$scratch/stdout" 2>"$scratch/stderr" || status=${PIPESTATUS[1]}
expect_text 'exit status' 4 "$status"
bytes "$(header "$one_cid")" >input.car
expected='-: missing at 59: expected '
expect_lines 'standard error' "$expected$one_text, and $empty_text came" "$scratch/stderr"
expect_same out/a.car.part input.car out/a.car.part

# The FIFO stays open, and nothing more comes: a thread reads ahead and waits for it.
begin 'receive: a wrong section ends a stream whose sender says nothing more'
mkfifo stalled
timeout 60 "$program" "${receive_one[@]}" stalled >"$scratch/stdout" 2>"$scratch/stderr" &
exec 7>stalled
bytes "$(header "$one_cid")" "$foreign_part" >&7
status=0
wait $! || status=$?
exec 7>&-
expect_text 'exit status' 4 "$status"
expect_lines 'standard error' "stalled: missing at 59: expected $one_text, and $empty_text came" "$scratch/stderr"
expect_bytes out/a.car.part "$(header "$one_cid")"

begin 'receive: standard output that is a closed pipe, full, or closed'
bytes "$one_archive" >input.car
{ { sleep 0.3; run_bare receive --root "$one_text" --out - input.car 2>"$scratch/stderr"; echo "$status" >ended; } | true; } || true
: >"$scratch/stdout"
status=$(cat ended)
expect 4 '' 'cannot write -: Broken pipe (os error 32)'
run_bare receive --root "$one_text" --out - input.car >/dev/full 2>"$scratch/stderr"
expect 4 '' 'cannot write -: No space left on device (os error 28)'
run_bare receive --root "$one_text" --out - input.car >&- 2>"$scratch/stderr"
expect 4 '' 'cannot write -: Bad file descriptor (os error 9)'

# FILE gets the number of standard error, and the thread that reads it may be at its end before the archive is created.
begin 'receive: no report gets into an archive where standard error is closed'
bytes "$one_archive" >input.car
for number in $(seq 50); do
  run_bare "${receive_one[@]}" --no-sync input.car 2>&- >"$scratch/stdout"
  expect_text 'exit status' 0 "$status"
  expect_bytes out/a.car "$one_archive"
  rm out/a.car
done

begin 'receive: a file that may grow no longer, and what was there'
long_block 2000
bytes "$(header "$long_cid")" "$(section "$long_cid" "$long")" >input.car
printf old >out/a.car
run_with_room 1 receive --root "$(text "$long_cid")" --out out/a.car input.car
expect 4 '' 'cannot write out/a.car: File too large (os error 27)'
expect_folder out a.car a.car.part
expect_text 'what was there' old "$(cat out/a.car)"
bytes "$(header "$one_cid")" "$(section "$abc_cid" "$abc")" >input.car
run "${receive_one[@]}" input.car
expect_text 'exit status' 4 "$status"
expect_text 'what was there' old "$(cat out/a.car)"
bytes "$one_archive" >input.car
run "${receive_one[@]}" input.car
expect 0 '' "$received_one"
expect_folder out a.car
expect_bytes out/a.car "$one_archive"

begin 'receive: two runs that write one file, and an output that is the input'
bytes "$one_archive" >input.car
mkfifo fifo
run_bare "${receive_one[@]}" fifo >first.out 2>first.err &
exec 7>fifo
head -c 138 input.car >&7
size_is 138 out/a.car.part
run "${receive_one[@]}" input.car
refused 'cannot write out/a.car: another run is writing it'
tail -c +139 input.car >&7
exec 7>&-
wait $! || fail 'status of the first run' /dev/null first.err
expect_folder out a.car
run receive --root "$one_text" --out input.car input.car
refused 'cannot write input.car: it is an input: give another output'
run receive --root "$one_text" --out input.car <input.car
refused 'cannot write input.car: it is an input: give another output'
expect_bytes input.car "$one_archive"
run receive --root "$one_text" --out none/a.car input.car
refused 'cannot write none/a.car: No such file or directory (os error 2); its directory must exist'
run receive --root "$one_text" --out out input.car
refused 'cannot write out: is a directory'

# A map with a key that is a number, over a list: {"0": the list of one link, "f": `abc`}.
begin 'receive: paths, with numbers that are keys and indexes'
numbered=a26130$(link "$one_cid")6166$(link "$abc_cid")
numbered_cid=$(cbor "$numbered")
numbered_text=$(text "$numbered_cid")
write_blocks "$(section "$numbered_cid" "$numbered")$one_blocks"
# along WORD..: receives what get exports of these words.
along() {
  run get --blocks blocks.car "$@" --out input.car
  expect_text 'exit status' 0 "$status"
  told=$(sed 's/^get /receive /; /^note/d' "$scratch/stderr")
  run receive "$@" --out out/a.car input.car
  expect 0 '' "$told"
  expect_same out/a.car input.car out/a.car
  rm out/a.car
}
for path in /0 /0/0 /f /; do
  for words in '' '--scope=block' '--selector={".":{}}' '--selector={"|":[]}'; do
    along --root "$numbered_text$path" $words
  done
done
along --root "$numbered_text/0,$numbered_text/0"

# The path of the second root leads through the first root, which came before it.
begin 'receive: a path of several roots through a block that came before, raw or not'
outer=a16130$(link "$one_cid")
outer_cid=$(cbor "$outer")
middle=a16130$(link "$outer_cid")
middle_cid=$(cbor "$middle")
write_blocks "$(section "$outer_cid" "$outer")$(section "$middle_cid" "$middle")$one_blocks"
along --root "$(text "$outer_cid")/0,$(text "$middle_cid")/0"
leaf=a16130$(link "$abc_cid")
leaf_cid=$(cbor "$leaf")
twice=a26130$(link "$abc_cid")6131$(link "$empty_cid")
twice_cid=$(cbor "$twice")
write_blocks "$(section "$leaf_cid" "$leaf")$(section "$twice_cid" "$twice")$(section "$abc_cid" "$abc")"
along --root "$(text "$leaf_cid")/0,$(text "$twice_cid")/0"

begin 'receive: a path that the stream does not have'
bytes "$(header "$numbered_cid")" "$(section "$numbered_cid" "$numbered")" "$(section "$abc_cid" "$abc")" >whole.car
# no_path PATH BYTES LINE WORD..: the path isn't in so many bytes of the stream.
no_path() {
  head -c "$2" whole.car >input.car
  run receive --root "$numbered_text/$1" --out out/a.car input.car "${@:4}"
  rejected "$2" "--root: $3"
}
front=$((59 + 1 + 36 + ${#numbered} / 2))
no_path x $front "no key \`x\` in $numbered_text: it has \`0\`, \`f\`"
no_path 1 $front "no key \`1\` in $numbered_text: it has \`0\`, \`f\`"
no_path f/x $((front + 40)) "nothing at \`x\` in $abc_text: there is a value of kind bytes"
no_path 0 $front "missing $one_text" --allow-missing all
bytes "$(header "$numbered_cid")" "$(section "$numbered_cid" "$numbered")" "$(section "$one_cid" "$one")" >whole.car
no_path 0/1 $((front + 79)) "no index \`1\` in $one_text: there is a list of 1"
no_path 0/x $((front + 79)) "no index \`x\` in $one_text: there is a list of 1"
run receive --root "$numbered_text/x" --out out/a.car whole.car --json
expect 4 '' "--root: no key \`x\` in $numbered_text: it has \`0\`, \`f\`
{\"job\":\"receive\",\"end\":\"rejected\",\"sections\":1,\"bytes\":$front,\"part\":\"out/a.car.part\",\"part_bytes\":$front,\"fault\":{\"place\":59,\"reason\":\"path\"}}
{\"total\":{\"jobs\":1,\"done\":0,\"skips\":0}}
{\"error\":\"no-key\",\"message\":\"--root: no key \`x\` in $numbered_text: it has \`0\`, \`f\`\",\"cid\":\"$numbered_text\",\"path\":\"$numbered_text/x\"}"

begin 'receive: --json'
bytes "$one_archive" >input.car
run "${receive_one[@]}" --json input.car --allow-missing raw
expect 0 '' '{"job":"receive","end":"done","visits":2,"kept":2,"sections":2,"bytes":178,"absent":0,"file":"out/a.car","skips":[]}
{"total":{"jobs":1,"done":1,"skips":0}}'
bytes "$(header "$one_cid")" "$(section "$one_cid" "$one")" "$foreign_part" >input.car
run "${receive_one[@]}" --json input.car
expect 4 '' "input.car: missing at 138: expected $abc_text, and $empty_text came
{\"job\":\"receive\",\"end\":\"rejected\",\"sections\":1,\"bytes\":138,\"part\":\"out/a.car.part\",\"part_bytes\":138,\"fault\":{\"place\":138,\"reason\":\"missing\",\"cid\":\"$empty_text\",\"expected\":\"$abc_text\"}}
{\"total\":{\"jobs\":1,\"done\":0,\"skips\":0}}
{\"error\":\"missing\",\"message\":\"input.car: missing at 138: expected $abc_text, and $empty_text came\",\"cid\":\"$abc_text\"}"
bytes "$one_archive" >input.car
run_bare receive --root "$one_text" --out - --json input.car >/dev/full 2>"$scratch/stderr"
expect 4 '' 'cannot write -: No space left on device (os error 28)
{"job":"receive","end":"write","sections":0,"bytes":0,"file":"-"}
{"total":{"jobs":1,"done":0,"skips":0}}
{"error":"write","message":"cannot write -: No space left on device (os error 28)"}'

begin 'receive: a disk that is full leaves whole sections'
large=$(repeated 3000 41)
large_list=81$(link "$(raw "$large")")
large_front=$(header "$(cbor "$large_list")")$(section "$(cbor "$large_list")" "$large_list")
bytes "$large_front" "$(section "$(raw "$large")" "$large")" >input.car
run_with_room 1 receive --root "$(text "$(cbor "$large_list")")" --out out/large.car input.car
expect 4 '' 'cannot write out/large.car: File too large (os error 27)'
expect_folder out large.car.part
expect_bytes out/large.car.part "$large_front"

# The blocks of a base are here already. The difference is a header of 59 bytes and a section of 79 or of 40.
begin 'receive: a base, whose blocks do not come'
base() { bytes "$no_roots" "$@" >base.car; }
base "$(section "$abc_cid" "$abc")"
bytes "$(header "$one_cid")" "$(section "$one_cid" "$one")" >input.car
run "${receive_one[@]}" --with base.car input.car
expect 0 '' 'receive done visits=2 kept=2 sections=1 bytes=138
total jobs=1 done=1 skips=0'
expect_same out/a.car input.car out/a.car
run verify out/a.car --with base.car
expect 0 'out/a.car sound sections=1 bytes=138' ''
rm out/a.car
run "${receive_one[@]}" input.car
expected_at 138 "$abc_text" ''
base "$(section "$one_cid" "$one")"
bytes "$(header "$one_cid")" "$(section "$abc_cid" "$abc")" >input.car
run "${receive_one[@]}" --with base.car input.car
expect 0 '' 'receive done visits=2 kept=2 sections=1 bytes=99
total jobs=1 done=1 skips=0'
rm out/a.car
base "$(section "$abc_cid" "$abc")"
bytes "$no_roots" "$(section "$one_cid" "$one")" >other.car
bytes "$(header "$one_cid")" >input.car
run "${receive_one[@]}" --with base.car --with other.car input.car
expect 0 '' 'receive done visits=2 kept=2 sections=0 bytes=59
total jobs=1 done=1 skips=0'
rm out/a.car

begin 'receive: a block of the base that comes, and damaged copies in it'
base "$(section "$abc_cid" "$abc")"
bytes "$one_archive" >input.car
run "${receive_one[@]}" --with base.car input.car
rejected 138 "input.car: known at 138: $abc_text: a file of --with has it"
base "$(section "$abc_cid" 616264)" "$(section "$abc_cid" "$abc")"
run "${receive_one[@]}" --with base.car input.car
expect 0 '' "$received_one"
rm out/a.car
head -c 138 input.car >cut.car
mv cut.car input.car
run "${receive_one[@]}" --with base.car input.car
expected_at 138 "$abc_text" ''

begin 'receive: the difference that get writes, with its base'
"$program" get --quiet --blocks "$top/examples/library.car" --root "$library_root/notes/today" --out base.car
for words in "--root $library_root/album/cover" "--root $library_root/notes/today" "--root $library_root/album --scope block"; do
  status=0
  "$program" get --blocks "$top/examples/library.car" $words --without base.car --out - 2>told | tee input.car |
    "$program" receive $words --with base.car --out out/a.car 2>"$scratch/stderr" || status=$?
  expect 0 '' "$(sed 's/^get /receive /; s/ known=[0-9]*//; /^note/d' told)"
  expect_same out/a.car input.car out/a.car
  rm out/a.car
done

begin 'receive: files of a base that are rejected'
bytes "$one_archive" >input.car
run "${receive_one[@]}" --with none.car input.car
refused 'cannot read none.car: No such file or directory (os error 2)'
expect_folder out

begin 'receive: --progress'
bytes "$one_archive" >input.car
run "${receive_one[@]}" input.car --progress
expect 0 '' "progress: 178 bytes received, 2 sections checked
$received_one"
run "${receive_one[@]}" input.car --progress --quiet
expect 0 '' ''

begin 'receive: arguments that are rejected'
bytes "$one_archive" >input.car
# wrong_asked LINE WORD..: the arguments are rejected with this first line, and nothing is written.
wrong_asked() {
  local line=$1
  shift
  run receive --out out/b.car input.car "$@"
  expect_text 'exit status' 2 "$status"
  expect_text 'the first line' "$line" "$(head -n 1 "$scratch/stderr")"
  expect_folder out
}
wrong_asked 'error: the following required arguments were not provided:'
wrong_asked "error: invalid value for '--root <ROOT>': 'Qm1': not a CID: neither a multibase prefix nor the 46 characters of a CIDv0" --root Qm1
wrong_asked 'selector: no JSON at 0' --root "$one_text" --selector ''
wrong_asked "error: invalid value 'x' for '--scope <SCOPE>': it is all, block or entity" --root "$one_text" --scope x
wrong_asked "error: the argument '--selector <JSON>' cannot be used with '--scope <SCOPE>'" --root "$one_text" --selector "$just_root" --scope all
wrong_asked "error: invalid value 'x' for '--allow-missing <WHICH>': 'x' is none of raw, dag-cbor and all" --root "$one_text" --allow-missing x
wrong_asked "error: standard input can't be given for '--with <FILE>'" --root "$one_text" --with -
wrong_asked "error: invalid value '0' for '--max-block <SIZE>': SIZE is a number of bytes from 1 to 18446744073709551615, or of K, M, G or T, as in 4G or 4GiB" --root "$one_text" --max-block 0
wrong_asked "error: invalid value for '--root <ROOT>': roots have one path in common: give one \`receive\` per path" --root "$one_text/0,$abc_text/1"
wrong_asked "--root and --selector: the path, of which each number counts twice, and the selector at its end nest more than 128 deep together" --root "$one_text/$(printf 'a/%.0s' $(seq 120))1/2/3/4" --selector "$just_root"
wrong_asked "--root: the selector of the path has over 131072 bytes, since each of its 20 numbers, a key or an index, doubles it" --root "$one_text$(printf '/%s' $(seq 20))"
run receive --root "$one_text" input.car
expect_text 'exit status' 2 "$status"
run receive --root "$one_text" --out '' input.car
expect_text 'the first line' "error: a value is required for '--out <FILE>' but none was supplied" "$(head -n 1 "$scratch/stderr")"
