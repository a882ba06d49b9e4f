# The option --allow-missing: which links are absent, and which are skips with it as without.

# A list of three links: to `abc`, which is raw, to the list of one link, which is DAG-CBOR, and to `abc` again. It is alone in
# its file.
trio=83$(link "$abc_cid")$(link "$one_cid")$(link "$abc_cid")
trio_cid=$(cbor "$trio")
trio_text=$(text "$trio_cid")
trio_block=$(section "$trio_cid" "$trio")
trio_bytes=$((59 + ${#trio_block} / 2))
get_trio=(get --blocks blocks.car --root "$trio_text" --out out/a.car)
trio_line="done visits=4 kept=4 sections=1 bytes=$trio_bytes"
first_skip="  1 missing $abc_text"
second_skip="  2 missing $(text "$one_cid")"
third_skip="  3 missing $abc_text"

# trio_gives WHICH STATUS ABSENT SKIPS LINE..: what is reported of the list with this option.
trio_gives() {
  rm -f out/a.car
  run "${get_trio[@]}" --allow-missing "$1"
  expect "$2" '' "$(printf '%s\n' "get $trio_line absent=$3" "${@:5}" "total jobs=1 done=1 skips=$4")"
  expect_bytes out/a.car "$(header "$trio_cid")$trio_block"
}

begin 'missing blocks of each codec'
write_blocks "$trio_block"
trio_gives raw 3 2 1 "$second_skip"
trio_gives dag-cbor 3 1 2 "$first_skip" "$third_skip"
trio_gives raw,dag-cbor 0 3 0
trio_gives all,raw 0 3 0
trio_gives all 0 3 0
rm out/a.car
run "${get_trio[@]}"
expect 3 '' "get $trio_line
$first_skip
$second_skip
$third_skip
total jobs=1 done=1 skips=3"

begin 'missing blocks: a damaged one is a skip'
write_blocks "$trio_block" "$(section "$abc_cid" 616264)"
trio_gives all 3 1 2 "  1 damaged $abc_text" "  3 damaged $abc_text"

begin 'missing blocks: a root is a skip, and so is a link to it'
write_blocks "$trio_block"
run get --blocks blocks.car --root "$trio_text,$abc_text" --allow-missing all --out out/a.car --partial
expect_text 'exit status' 4 "$status"
expect_text 'the report' "$first_skip
$third_skip
  4 missing $abc_text
total jobs=1 done=1 skips=3" "$(sed 1d "$scratch/stderr")"
expect_text 'absent' ' absent=1' "$(sed -n '1s/.*\( absent=.*\)/\1/p' "$scratch/stderr")"

begin 'missing blocks, beside known ones, as text and as JSON'
write_blocks "$trio_block"
run "${get_trio[@]}" --allow-missing all --without blocks.car
expect 0 '' "get done visits=4 kept=4 sections=0 bytes=59 known=1 absent=3
total jobs=1 done=1 skips=0"
run "${get_trio[@]}" --allow-missing all --without blocks.car --json
expect 0 '' '{"job":"get","end":"done","visits":4,"kept":4,"sections":0,"bytes":59,"known":1,"absent":3,"file":"out/a.car","skips":[]}
{"total":{"jobs":1,"done":1,"skips":0}}'

begin 'missing blocks of several jobs, each with its own root'
write_blocks "$trio_block"
write_jobs "a $trio_text 9 $all" "b $abc_text 9 $all"
for again in 1 2; do
  run jobs "${inputs[@]}" --out out --allow-missing all
  expect_text 'exit status' 3 "$status"
  expect_lines 'standard output' "a $trio_line absent=3
b done visits=1 kept=1 sections=0 bytes=59 absent=0
  0 missing $abc_text
total jobs=2 done=2 skips=1" "$scratch/stdout"
done
write_jobs "a $trio_text 9 $all"
run jobs "${inputs[@]}" --out out --allow-missing all
expect 0 "a $trio_line absent=3
total jobs=1 done=1 skips=0" ''

# A word that names no codec is rejected before a file is read.
for which in '' , raw, dag-pb RAW 'raw dag-cbor'; do
  words_refused get --blocks none --root "$trio_text" --allow-missing "$which"
  words_refused jobs --blocks none --jobs none --out out --allow-missing "$which"
done
