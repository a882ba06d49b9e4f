# The command `get`: the archive of one job without a job file. What is wanted comes from the formats and from the command
# `jobs` over the same words.

one_text=$(text "$one_cid")
get_one=(get --blocks blocks.car --root "$one_text")
get_report="get $one_line
total jobs=1 done=1 skips=0"
nothing_below='note: the selector matched nothing below the root'
no_edge='note: a recursion of the selector has no edge {"@":{}}, so it never recurs'

# got STATUS ERRORS HEX..: the archive is all of standard output.
got() {
  expect_text 'exit status' "$1" "$status"
  expect_lines 'standard error' "$2" "$scratch/stderr"
  bytes "${@:3}" >"$scratch/wanted"
  expect_same 'standard output' "$scratch/wanted" "$scratch/stdout"
}

begin 'get: everything below a root, to a file and to standard output'
write_blocks "$one_blocks"
run "${get_one[@]}" --out out/a.car
expect 0 '' "$get_report"
expect_folder out a.car
expect_bytes out/a.car "$one_archive"
run "${get_one[@]}"
got 0 "$get_report" "$one_archive"
run "${get_one[@]}" --out -
got 0 "$get_report" "$one_archive"
run "${get_one[@]}" --out out/a.car --sync --walkers 1 --verifiers 1
expect 0 '' "$get_report"
expect_folder out a.car
expect_bytes out/a.car "$one_archive"

begin 'get: several roots, in their order'
write_blocks "$one_blocks"
run get --blocks blocks.car --root "$abc_text,$one_text" --out out/a.car
expect 0 '' 'get done visits=3 kept=3 sections=2 bytes=219
total jobs=1 done=1 skips=0'
expect_bytes out/a.car "$(header "$abc_cid" "$one_cid")" "$(section "$abc_cid" "$abc")" "$(section "$one_cid" "$one")"

begin 'get: the example, where what is shared is gone into once, and at every arrival'
run get --blocks "$top/examples/library.car" --root $library_root --out out/once.car
expect 3 '' "$(sed -n '/^    get done/,/^    total/{s/^    //p; /^total/q}' "$top/README.md")"
expect_same 'out/once.car' "$top/examples/expected/whole.car" out/once.car
run get --blocks "$top/examples/library.car" --root $library_root --out out/each.car --every-arrival
expect_text 'exit status' 3 "$status"
expect_lines 'standard error' "get $(sed -n '1s/^whole //p; 2,4p' "$top/examples/expected/report.txt")
total jobs=1 done=1 skips=3" "$scratch/stderr"
expect_same 'out/each.car' "$top/examples/expected/whole.car" out/each.car

begin 'get: the recipes of docs/SELECTORS.md, in JSON and in hexadecimal, are those of jobs'
for ((at = 0; at < ${#recipes[@]}; at += 3)); do
  write_jobs "get $library_root 1000 ${recipes[at + 1]}"
  run jobs --blocks "$top/examples/library.car" --jobs jobs.txt --out out
  mv "$scratch/stdout" report
  words=(get --blocks "$top/examples/library.car" --root $library_root --every-arrival --limit 1000)
  rm -f json.car
  run "${words[@]}" --selector "${recipes[at]}" --out json.car
  grep -v '^note: ' "$scratch/stderr" >came
  expect_same "report of ${recipes[at]}" report came
  expect_same "archive of ${recipes[at]}" out/get.car json.car
  run "${words[@]}" --selector-hex "${recipes[at + 1]}"
  expect_same "archive of ${recipes[at + 1]}" out/get.car "$scratch/stdout"
done

begin 'get: a limit that is too low names nothing, and the archive that is there stays'
write_blocks "$one_blocks"
bytes ff >out/a.car
run "${get_one[@]}" --out out/a.car --limit 1
expect 4 '' 'left out/a.car.part: its job ended with limit
get limit visits=1 kept=1 sections=1 bytes=138
total jobs=1 done=0 skips=0'
expect_folder out a.car a.car.part
expect_bytes out/a.car ff
expect_bytes out/a.car.part "$(header "$one_cid")" "$(section "$one_cid" "$one")"
run "${get_one[@]}" --limit 1
got 4 'get limit visits=1 kept=1 sections=1 bytes=138
total jobs=1 done=0 skips=0' "$(header "$one_cid")" "$(section "$one_cid" "$one")"

begin 'get: limits above a million'
write_blocks "$one_blocks"
for limit in 1000001 4294967295; do
  run "${get_one[@]}" --limit "$limit"
  got 0 "$get_report" "$one_archive"
  run "${get_one[@]}" --every-arrival --limit "$limit"
  got 0 "$get_report" "$one_archive"
done

begin 'get: what is left is replaced, and the archive too, once it is whole'
bytes ff >out/a.car
bytes "$(repeated 1000 ff)" >out/a.car.part
write_blocks "$one_blocks"
run "${get_one[@]}" --out out/a.car
expect 0 '' "$get_report"
expect_folder out a.car
expect_bytes out/a.car "$one_archive"

begin 'get: a root that is missing, damaged, or of another codec names nothing'
write_blocks "$(section "$with_zero_cid" "$with_one")" "$(section "$abc_cid" "$abc")"
missing=$(text "$(raw 6d)")
run get --blocks blocks.car --root "$abc_text,$missing" --out out/a.car
expect 4 '' "left out/a.car.part: its root $missing is missing
get done visits=2 kept=2 sections=1 bytes=$((1 + 58 + 41 + 40))
  1 missing $missing
total jobs=1 done=1 skips=1"
expect_folder out a.car.part
run get --blocks blocks.car --root "$(text "$with_zero_cid")" --out out/a.car
expect_text 'the first line' "left out/a.car.part: its root $(text "$with_zero_cid") is damaged" "$(head -n 1 "$scratch/stderr")"
expect_text 'exit status' 4 "$status"
pb_text=$(text "01701220$(digest "$abc")")
run get --blocks blocks.car --root "$pb_text" --out out/a.car
expect_text 'the first line' "left out/a.car.part: its root $pb_text has a codec that isn't exported" "$(head -n 1 "$scratch/stderr")"
expect_text 'exit status' 4 "$status"
expect_folder out a.car.part
title='get: and so is a CIDv0, among the arguments and in a header'
v0_text=v0-1220$(digest "$abc")
bytes "$(header "1220$(digest "$abc")")" "$(section "$abc_cid" "$abc")" >v0.car
for v0 in "--blocks blocks.car --root QmatYkNGZnELf8cAGdyJpUca2PyY4szai3RHyyWofNY1pY" \
  "--blocks blocks.car --root $v0_text/" '--blocks v0.car --quiet'; do
  run get $v0 --out out/a.car
  expect 4 '' "left out/a.car.part: its root $v0_text has a codec that isn't exported
get done visits=1 kept=1 sections=0 bytes=$(bytes "$(header "1220$(digest "$abc")")" | wc -c)
  0 codec $v0_text
total jobs=1 done=1 skips=1"
done
expect_folder out a.car.part
title='get: and so where it goes to standard output'
run get --blocks blocks.car --root "$abc_text,$missing"
got 4 "get done visits=2 kept=2 sections=1 bytes=$((1 + 58 + 41 + 40))
  1 missing $missing
total jobs=1 done=1 skips=1" "$(header "$abc_cid" "$(raw 6d)")" "$(section "$abc_cid" "$abc")"
title='get: an identity CID is a root without a section'
run get --blocks blocks.car --root "$(text "$(raw_inline "$abc")")" --out out/a.car
expect 0 '' "get done visits=1 kept=1 sections=0 bytes=$(bytes "$(header "$(raw_inline "$abc")")" | wc -c)
total jobs=1 done=1 skips=0
$nothing_below"

begin 'get: what is skipped below a root leaves its archive whole'
write_blocks "$(section "$fork_cid" "$fork")" "$(section "$with_zero_cid" "$with_one")" "$one_blocks"
run get --blocks blocks.car --root "$(text "$fork_cid")" --out out/a.car
expect_text 'exit status' 3 "$status"
expect_folder out a.car
expect_bytes out/a.car "$(header "$fork_cid")" "$(section "$fork_cid" "$fork")" "$one_blocks"

begin 'get: notes'
write_blocks "$one_blocks"
run "${get_one[@]}" --selector '{"f":{"f>":{"a":{".":{}}}}}' --out out/a.car
expect 0 '' "get done visits=1 kept=1 sections=1 bytes=138
total jobs=1 done=1 skips=0
$nothing_below"
# The outer recursion has no edge; the names R and @ are none of a form.
for selector in '{"R":{"l":{"none":{}},":>":{"a":{">":{".":{}}}}}}' \
  '{"|":[{"R":{"l":{"depth":2},":>":{"a":{">":{"R":{"l":{"none":{}},":>":{"a":{">":{"@":{}}}}}}}}}},{"a":{">":{".":{}}}}]}'; do
  run "${get_one[@]}" --selector "$selector"
  got 0 "$get_report
$no_edge" "$one_archive"
done
run "${get_one[@]}" --selector '{"|":[{"f":{"f>":{"R":{".":{}}}}},{"selector":{".":{}}}]}'
refused 'selector: unknown key "selector" at /|/1'
run "${get_one[@]}" --selector '{"|":[{"f":{"f>":{"R":{".":{}},"@":{".":{}}}}},{"a":{">":{".":{}}}}]}'
got 0 "$get_report" "$one_archive"
run "${get_one[@]}" --selector '{"R":{"l":{"none":{}},":>":{"f":{"f>":{"@":{".":{}}}}}}}'
got 0 "get done visits=1 kept=1 sections=1 bytes=138
total jobs=1 done=1 skips=0
$nothing_below
$no_edge" "$(header "$one_cid")" "$(section "$one_cid" "$one")"

# get_refused LINE WORD..
get_refused() {
  local line=$1
  shift
  title="get: $line"
  run "$@"
  refused "$line"
  expect_folder out
}

begin 'get: words that are those of no job'
write_blocks "$one_blocks"
while read -r root line; do
  title="get: $root"
  run get --blocks none --root "$root" --out out/a.car
  expect_text 'exit status' 2 "$status"
  expect_text 'the first line' "error: invalid value for '--root <ROOT>': $line" "$(head -n 1 "$scratch/stderr")"
  expect_folder out
done <<END
f01551220ba7816bf 'f01551220ba7816bf': not a CID: a CID that ends early
f0155000 'f0155000': not a CID: a digit of base16 too many, or another one at its end
ipfs://z0/a 'ipfs://z0/a': not a CID: no digit of base58btc at byte 1
Qm1 'Qm1': not a CID: neither a multibase prefix nor the 46 characters of a CIDv0
zQmatYkNGZnELf8cAGdyJpUca2PyY4szai3RHyyWofNY1pY 'zQmatYkNGZnELf8cAGdyJpUca2PyY4szai3RHyyWofNY1pY': not a CID: a CIDv0 after a multibase prefix, of which it has none
z$(repeated 1025 2) 'z$(repeated 1025 2)': not a CID: more than 1024 digits of base58btc: give it in base32
$abc_text/a,b 'b' after a comma: not a CID: a CID that ends early; a comma in a path is %2C
END
roots=$abc_text$(printf ",$abc_text%.0s" $(seq 64))
get_refused '--root: 65 CIDs, expected 1 to 64' get --blocks none --root "$roots" --out out/a.car
get_refused '--limit: 0, expected 1 to 4294967295' "${get_one[@]}" --limit 0
get_refused '--limit: greater than 4294967295, expected 1 to 4294967295' "${get_one[@]}" --limit 4294967296
get_refused '--limit: not a number in decimal digits, expected 1 to 4294967295' "${get_one[@]}" --limit x
get_refused 'selector: unknown key "x" at /f/f>/album' "${get_one[@]}" --selector '{"f":{"f>":{"album":{"x":{}}}}}'
get_refused 'selector: no JSON at 0' "${get_one[@]}" --selector ''
get_refused '--selector-hex: no selector: unknown key "x"' "${get_one[@]}" --selector-hex a16178a0
get_refused '--selector-hex: not hex, expected the line of ix_export selector' "${get_one[@]}" --selector-hex xy
get_refused '--selector-hex: JSON, converted to hex by ix_export selector' "${get_one[@]}" --selector-hex '{".":{}}'

# get_usage WORD..: arguments that the command line itself rejects.
get_usage() {
  run "$@"
  expect_text 'exit status' 2 "$status"
  expect_lines 'standard output' '' "$scratch/stdout"
  grep -q '^error: ' "$scratch/stderr" || fail 'standard error' /dev/null "$scratch/stderr"
  expect_folder out
}
title='get: two selectors'
get_usage "${get_one[@]}" --selector '{".":{}}' --selector-hex "$matcher"
title='get: no root'
get_usage get --blocks blocks.car
title='get: no blocks'
get_usage get --root "$one_text"
title='get: an output without a name'
get_usage "${get_one[@]}" --out ''
expect_text 'the first line' "error: a value is required for '--out <FILE>' but none was supplied" "$(head -n 1 "$scratch/stderr")"
expect_folder . blocks.car out

begin 'get: blocks from standard input'
write_blocks "$one_blocks"
run get --blocks - --root "$one_text" <blocks.car
got 0 "$get_report" "$one_archive"
run get --blocks - --root "$one_text" <&-
refused 'cannot read -: Bad file descriptor (os error 9)'
run get --blocks - --root "$one_text" --out blocks.car <blocks.car
refused 'cannot write blocks.car: it is an input: give another output'

begin 'get: blocks that are refused'
write_blocks "$one_blocks"
run get --blocks none --root "$one_text" --out out/a.car
refused 'cannot read none: No such file or directory (os error 2)'
bytes "$no_roots" 05 >blocks.car
run "${get_one[@]}" --out out/a.car
refused 'blocks.car: truncated at 18: ix_export inspect says how to keep the sections before it'
printf 'some text' >blocks.car
run "${get_one[@]}" --out out/a.car
refused 'blocks.car: truncated at 0: plain text'
expect_folder out

begin 'get: an output that can not be made'
write_blocks "$one_blocks"
get_refused 'cannot write none/a.car: No such file or directory (os error 2); its directory must exist' "${get_one[@]}" --out none/a.car
get_refused 'cannot write out: is a directory' "${get_one[@]}" --out out
get_refused 'cannot write blocks.car: it is an input: give another output' "${get_one[@]}" --out blocks.car
ln -s /dev/null device
get_refused 'cannot write device: not a regular file' "${get_one[@]}" --out device
expect_folder . blocks.car device out
title='get: another run writes it'
exec {held}>out/a.car.part
flock "$held"
run "${get_one[@]}" --out out/a.car
refused 'cannot write out/a.car: another run is writing it'
exec {held}>&-

begin 'get: an archive that finds no room'
long=$(repeated 100000 6c)
long_cid=$(raw "$long")
write_blocks "$(section "$long_cid" "$long")"
bytes ff >out/a.car
run_with_room 16 get --blocks blocks.car --root "$(text "$long_cid")" --out out/a.car
expect 4 '' 'left out/a.car.part: its job ended with write
cannot write out/a.car: File too large (os error 27)
get write visits=0 kept=0 sections=0 bytes=16384
total jobs=1 done=0 skips=0'
expect_folder out a.car a.car.part
expect_bytes out/a.car ff
title='get: standard output is full'
run_bare get --blocks blocks.car --root "$(text "$long_cid")" >/dev/full 2>"$scratch/stderr"
expect_text 'exit status' 4 "$status"
expect_text 'the cause' 'cannot write -: No space left on device (os error 28)' "$(head -n 1 "$scratch/stderr")"
expect_text 'the report' 'get write' "$(sed -n 2p "$scratch/stderr" | cut -d' ' -f1,2)"
title='get: standard output is closed'
run_bare get --blocks blocks.car --root "$(text "$long_cid")" >&- 2>"$scratch/stderr"
expect_text 'exit status' 4 "$status"
expect_text 'the cause' 'cannot write -: Bad file descriptor (os error 9)' "$(head -n 1 "$scratch/stderr")"
expect_text 'the report' 'get write' "$(sed -n 2p "$scratch/stderr" | cut -d' ' -f1,2)"

begin 'get: a header that finds no room: nothing is left'
long_cid=01551e$(varint 60000)$(repeated 60000 64)
write_blocks "$one_blocks"
bytes ff >out/a.car
run_with_room 16 get --blocks blocks.car --root "$(text "$long_cid")" --out out/a.car
refused 'cannot write out/a.car: File too large (os error 27)'
expect_folder out a.car
run_bare get --blocks blocks.car --root "$(text "$long_cid")" >/dev/full 2>"$scratch/stderr"
: >"$scratch/stdout"
refused 'cannot write -: No space left on device (os error 28)'

begin 'get: how it goes on is told before the report'
write_blocks "$one_blocks"
run "${get_one[@]}" --out out/a.car --progress
expect 0 '' "progress: 1 of 1 jobs closed, 2 visits delivered, 178 bytes written
$get_report"
title='get: --quiet leaves progress out, and the report where nothing was skipped'
run "${get_one[@]}" --out out/a.car --progress --quiet
expect 0 '' ''
expect_bytes out/a.car "$one_archive"
run "${get_one[@]}" --limit 1 --quiet --out out/b.car
expect 4 '' "left out/b.car.part: its job ended with limit
get limit visits=1 kept=1 sections=1 bytes=138
total jobs=1 done=0 skips=0"

if command -v script >/dev/null; then
  begin 'get: an archive for a terminal is refused, and a file is not'
  write_blocks "$one_blocks"
  status=0
  script -qec "$(printf '%q ' "$program" "${get_one[@]}")" /dev/null </dev/null >"$scratch/terminal" || status=$?
  expect_text 'exit status' 2 "$status"
  expect_text 'the terminal' "error: the archive would go to a terminal: give '--out <FILE>', or redirect standard output" \
    "$(head -n 1 "$scratch/terminal" | tr -d '\r')"
  status=0
  script -qec "$(printf '%q ' "$program" "${get_one[@]}" --out out/a.car)" /dev/null </dev/null >"$scratch/terminal" || status=$?
  expect_text 'exit status' 0 "$status"
  expect_text 'the terminal' "$get_report" "$(tr -d '\r' <"$scratch/terminal")"
  expect_bytes out/a.car "$one_archive"
fi
