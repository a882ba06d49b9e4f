# CARv2 files: the CARv1 in them is read by the offset and the size in their header.

# little NUMBER: eight bytes, the least significant first.
little() {
  local number=$1 byte
  for byte in 1 2 3 4 5 6 7 8; do
    printf '%02x' $((number % 256))
    number=$((number / 256))
  done
}

# carv2 OFFSET SIZE INDEX HEX..: the pragma, the header with these numbers, and bytes.
carv2() {
  printf '%s' 0aa16776657273696f6e02 "$(repeated 16 00)" "$(little "$1")" "$(little "$2")" "$(little "$3")" "${@:4}"
}

# Writes v2.car: the blocks after six bytes of padding, and something like an index after them.
inner=$no_roots$one_blocks
size=$((${#inner} / 2))
write_carv2() {
  bytes "$(carv2 57 "$size" $((57 + size)) "$(repeated 6 00)" "$inner" 0401ffffff)" >v2.car
}

begin 'CARv2: get reads it, jobs with --carv2, alone and among others'
write_carv2
write_jobs "a $one_job"
run "${get_of[@]}" --blocks v2.car
got 0 "$get_report" "$one_archive"
run "${get_of[@]}" --blocks v2.car --carv2
got 0 "$get_report" "$one_archive"
run jobs --blocks v2.car --carv2 --jobs jobs.txt --out out
expect 0 "a $one_line
total jobs=1 done=1 skips=0" ''
expect_bytes out/a.car "$one_archive"
write_blocks "$(section "$empty_cid" '')"
run "${get_of[@]}" --blocks blocks.car --blocks v2.car
got 0 "$get_report" "$one_archive"
title='CARv2: jobs rejects it without --carv2'
run jobs --blocks v2.car --jobs jobs.txt --out out
refused 'blocks: version 2 at 0'
run jobs --blocks v2.car --jobs jobs.txt --out out --verbose
refused 'blocks: version 2 at 0
v2.car: a CARv2 file; --carv2 reads the CARv1 in it'

begin 'CARv2: inspect describes it, with places from its beginning'
write_carv2
run inspect v2.car
expect 0 "version 2
index yes
roots 0
bytes $(wc -c <v2.car)
sections 2
repeated 0
codec raw 1
codec dag-cbor 1
hash sha2-256 2
smallest 3
median 3
greatest $((${#one} / 2))
memory $(($(wc -c <v2.car) + 64 * 2 + 16 * 1024 * 1024))" ''
run inspect --list v2.car
second=$((57 + 18 + 1 + (${#one_cid} + ${#one}) / 2))
expect 0 "$((57 + 18)) $((${#one} / 2)) $one_text
$second 3 $abc_text" ''
bytes "$(carv2 51 "$size" 0 "$inner")" >v2.car
run inspect v2.car
expect_text 'the first lines' 'version 2
index no
roots 0' "$(head -n 3 "$scratch/stdout")"

begin 'CARv2: verify judges it, with places from its beginning'
write_carv2
run verify v2.car
expect 0 "v2.car sound sections=2 bytes=$(wc -c <v2.car)" ''
bytes "$(carv2 60 $((18 + ${#one_blocks} / 2 + 1 + 36 + 3)) 0 "$(repeated 9 00)" "$inner" "$(section "$empty_cid" 616263)" ff)" >v2.car
run verify v2.car
expect_text 'exit status' 3 "$status"
expect_lines 'standard output' "v2.car broken sections=3 bytes=$(wc -c <v2.car) unsound=1 skips=0
  section $((60 + size)) damaged $(text "$empty_cid")" "$scratch/stdout"

# wrong PLACE HEX..: get, verify and inspect reject the file, with the place from its beginning.
wrong() {
  local line=$1
  shift
  begin "CARv2: $line"
  bytes "$@" >v2.car
  run verify v2.car
  expect_text 'exit status' 2 "$status"
  expect_text 'the beginning' "v2.car: $line:" "$(cut -c "1-$((${#line} + 9))" "$scratch/stderr")"
  run "${get_of[@]}" --blocks v2.car
  expect_text 'exit status' 2 "$status"
  expect_text 'the beginning' "v2.car: $line:" "$(cut -c "1-$((${#line} + 9))" "$scratch/stderr")"
  run inspect v2.car
  expect_text 'exit status' 2 "$status"
  expect_text 'the beginning' "v2.car: $line:" "$(cut -c "1-$((${#line} + 9))" "$scratch/stderr")"
}
whole=$(carv2 51 "$size" 0 "$inner")
wrong 'truncated at 11' "${whole:0:22}"
wrong 'truncated at 11' "${whole:0:100}"
wrong 'truncated at 11' "${whole%??}"
wrong 'truncated at 11' "$(carv2 51 $((size + 1)) 0 "$inner")"
wrong 'truncated at 11' "$(carv2 $((size + 60)) 0 0 "$inner")"
wrong 'header at 11' "$(carv2 50 "$size" 0 "$inner")"
wrong 'header at 11' "$(carv2 0 0 0 "$inner")"
wrong 'truncated at 51' "$(carv2 51 0 0 "$inner")"
wrong 'truncated at 11' "$(carv2 51 9223372036854775807 0 "$inner")"
wrong 'truncated at 11' "${whole:0:70}ffffffffffffffff${whole:86}"
wrong 'version 2 at 51' "$(carv2 51 11 0 0aa16776657273696f6e02)"
wrong "truncated at $((51 + 18))" "$(carv2 51 $((size - 44)) 0 "$inner")"

begin 'CARv2: inspect says how to keep the sections before an error'
bytes "$(carv2 51 $((size - 1)) 0 "$inner")" >v2.car
run inspect v2.car
at=$((51 + 18 + 1 + (${#one_cid} + ${#one}) / 2))
refused "v2.car: truncated at $at: its whole sections are its bytes 51 to $at (tail -c +52 | head -c $((at - 51)))"
tail -c +52 v2.car | head -c $((at - 51)) >kept.car
run verify --blocks-only kept.car
expect 0 "kept.car sound sections=1 bytes=$((at - 51))" ''
