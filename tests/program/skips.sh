# The option --paths of `get` and `jobs`: where each skip is. What is wanted is written out from the formats.

# A map whose keys have to be escaped, and a list of 1 and a list of two links under `a`. Each link is to `abc`, which is in no
# file. The keys are "", a line end, " ", "%", ",", "a", the byte ff, "..", "ü", "a/b" and "~-_.", in the order of DAG-CBOR.
to_abc=$(link "$abc_cid")
keys=ab60${to_abc}610a${to_abc}6120${to_abc}6125${to_abc}612c${to_abc}61618201
keys=${keys}82$to_abc${to_abc}61ff${to_abc}622e2e${to_abc}62c3bc${to_abc}63612f62${to_abc}647e2d5f2e$to_abc
keys_cid=$(cbor "$keys")
keys_text=$(text "$keys_cid")
keys_block=$(section "$keys_cid" "$keys")

# skip SEQ WORD TEXT PATH: the line of a skip.
skip() {
  printf '  %s %s %s %s' "$@"
}

# shows WORD TEXT PATH..: at each of these paths `show` has this word for this CID.
shows() {
  local path
  for path in "${@:3}"; do
    run show --blocks blocks.car "$path"
    expect 3 '' "$1 $2"
  done
}

begin 'paths of skips: keys that are escaped, and the indexes of a list in a list'
write_blocks "$keys_block"
run get --blocks blocks.car --root "$keys_text" --paths --out out/a.car
expect 3 '' "get done visits=13 kept=13 sections=1 bytes=$(((118 + ${#keys_block}) / 2))
$(skip 1 missing "$abc_text" "$keys_text//")
$(skip 2 missing "$abc_text" "$keys_text/%0A")
$(skip 3 missing "$abc_text" "$keys_text/%20")
$(skip 4 missing "$abc_text" "$keys_text/%25")
$(skip 5 missing "$abc_text" "$keys_text/%2C")
$(skip 6 missing "$abc_text" "$keys_text/a/1/0")
$(skip 7 missing "$abc_text" "$keys_text/a/1/1")
$(skip 8 missing "$abc_text" "$keys_text/%FF")
$(skip 9 missing "$abc_text" "$keys_text/..")
$(skip 10 missing "$abc_text" "$keys_text/%C3%BC")
$(skip 11 missing "$abc_text" "$keys_text/a%2Fb")
$(skip 12 missing "$abc_text" "$keys_text/~-_.")
total jobs=1 done=1 skips=12"
paths=$(sed -n 's/^  .* //p' "$scratch/stderr")
shows missing "$abc_text" $paths
run get --blocks blocks.car --root "$keys_text" --out out/b.car
expect_text 'the report without' "$(sed 's/^\(  .*\) .*/\1/' <<<"$(skip 1 missing "$abc_text" "$keys_text//")")" "$(sed -n 2p "$scratch/stderr")"
expect_same 'the archive without' out/a.car out/b.car

# A map of `in`, a block, and `l`, an identity CID whose block is nothing but a link. The block is a list of an identity CID, in
# which `x` is a link of another codec, and of a link of another hash.
other_codec=01701220$(digest 0a)
other_hash=01551420$(digest 0a)
held=a16178$(link "$other_codec")
listed=82$(link "$(cbor_inline "$held")")$(link "$other_hash")
listed_cid=$(cbor "$listed")
nested=a2616c$(link "$(cbor_inline "$to_abc")")62696e$(link "$listed_cid")
nested_cid=$(cbor "$nested")
nested_text=$(text "$nested_cid")
nested_block=$(section "$nested_cid" "$nested")
listed_block=$(section "$listed_cid" "$listed")
nested_skips="$(skip 2 missing "$abc_text" "$nested_text/l")
$(skip 5 codec "$(text "$other_codec")" "$nested_text/in/0/x")
$(skip 6 hash "$(text "$other_hash")" "$nested_text/in/1")"

begin 'paths of skips: through blocks and identity CIDs, and a block that is a link'
write_blocks "$nested_block" "$listed_block"
run get --blocks blocks.car --root "$nested_text" --paths --out out/a.car
expect_text 'exit status' 3 "$status"
expect_text 'the skips' "$nested_skips" "$(sed -n '2,4p' "$scratch/stderr")"
shows missing "$abc_text" "$nested_text/l"
shows codec "$(text "$other_codec")" "$nested_text/in/0/x"
shows hash "$(text "$other_hash")" "$nested_text/in/1"

begin 'paths of skips: from a root with a path, and nothing below a damaged block'
write_blocks "$nested_block" "$listed_block"
run get --blocks blocks.car --root "$nested_text/in" --paths --out out/a.car
expect_text 'the skips' "$(skip 3 codec "$(text "$other_codec")" "$nested_text/in/0/x")
$(skip 4 hash "$(text "$other_hash")" "$nested_text/in/1")" "$(sed -n '2,3p' "$scratch/stderr")"
write_blocks "$nested_block" "$(section "$listed_cid" "${listed}00")"
rm out/a.car
run get --blocks blocks.car --root "$nested_text" --paths --out out/a.car
expect_text 'the skips' "$(skip 2 missing "$abc_text" "$nested_text/l")
$(skip 3 damaged "$(text "$listed_cid")" "$nested_text/in")
total jobs=1 done=1 skips=2" "$(sed 1d "$scratch/stderr")"
shows damaged "$(text "$listed_cid")" "$nested_text/in"

begin 'paths of skips: several roots, of which one is missing'
write_blocks "$nested_block" "$listed_block"
run get --blocks blocks.car --root "$abc_text,$nested_text,$nested_text" --paths --out out/a.car
expect_text 'exit status' 4 "$status"
expect_text 'the skips' "$(skip 0 missing "$abc_text" "$abc_text")
$(skip 3 missing "$abc_text" "$nested_text/l")
$(skip 6 codec "$(text "$other_codec")" "$nested_text/in/0/x")
$(skip 7 hash "$(text "$other_hash")" "$nested_text/in/1")
total jobs=1 done=1 skips=4" "$(grep -v '^left\|^get' "$scratch/stderr")"

# A list of two links to a map, in which `m` is a link to `abc`.
map=a1616d$to_abc
map_cid=$(cbor "$map")
twice=82$(link "$map_cid")$(link "$map_cid")
twice_cid=$(cbor "$twice")
twice_text=$(text "$twice_cid")
twice_blocks=$(section "$twice_cid" "$twice")$(section "$map_cid" "$map")

begin 'paths of skips: expanded once, at every link, and up to a limit'
write_blocks "$twice_blocks"
first=$(skip 2 missing "$abc_text" "$twice_text/0/m")
second=$(skip 4 missing "$abc_text" "$twice_text/1/m")
run get --blocks blocks.car --root "$twice_text" --paths --out out/a.car
expect_text 'once' "$first
total jobs=1 done=1 skips=1" "$(sed 1d "$scratch/stderr")"
rm out/a.car
run get --blocks blocks.car --root "$twice_text" --paths --every-arrival --out out/a.car
expect_text 'at every link' "$first
$second
total jobs=1 done=1 skips=2" "$(sed 1d "$scratch/stderr")"
run get --blocks blocks.car --root "$twice_text" --paths --every-arrival --limit 4 --out out/b.car
expect_text 'exit status' 4 "$status"
expect_text 'up to a limit' "$first
total jobs=1 done=0 skips=1" "$(grep -v '^left\|^get' "$scratch/stderr")"

begin 'paths of skips: as JSON, beside known blocks and those that may be missing'
write_blocks "$nested_block" "$listed_block"
with_path() {
  printf '{"visit":%s,"verdict":"%s","cid":"%s","path":"%s"}' "$@"
}
run get --blocks blocks.car --without blocks.car --root "$nested_text" --allow-missing raw --paths --json --out out/a.car
expect 3 '' "{\"job\":\"get\",\"end\":\"done\",\"visits\":7,\"kept\":7,\"sections\":0,\"bytes\":59,\"known\":2,\"absent\":1,\"file\":\"out/a.car\",\"skips\":[$(with_path 5 codec "$(text "$other_codec")" "$nested_text/in/0/x"),$(with_path 6 hash "$(text "$other_hash")" "$nested_text/in/1")]}
{\"total\":{\"jobs\":1,\"done\":1,\"skips\":2}}"
rm out/a.car
run get --blocks blocks.car --without blocks.car --root "$nested_text" --allow-missing raw --paths --prefer-sound --out out/a.car
expect 3 '' "get done visits=7 kept=7 sections=0 bytes=59 known=2 absent=1
$(sed 1d <<<"$nested_skips")
total jobs=1 done=1 skips=2"

begin 'paths of skips: why bytes are malformed, as JSON alone'
bad=a2626161016161
ends=$(cbor_inline 8102ff)
bad_links=83$(link "$(cbor "$bad")")$(link "$ends")$(link "$abc_cid")
bad_text=$(text "$(cbor "$bad_links")")
bad_block=$(section "$(cbor "$bad_links")" "$bad_links")
write_blocks "$bad_block" "$(section "$(cbor "$bad")" "$bad")"
with_cause() {
  printf '{"visit":%s,"verdict":"malformed","cid":"%s","path":"%s","cause":"%s","offset":%s}' "$@"
}
causes="$(with_cause 1 "$(text "$(cbor "$bad")")" "$bad_text/0" 'key order' 5),$(with_cause 2 "$(text "$ends")" "$bad_text/1" 'bytes after the item' 2),$(with_path 3 missing "$abc_text" "$bad_text/2")"
bad_bytes=$(((118 + ${#bad_block}) / 2))
run get --blocks blocks.car --root "$bad_text" --paths --json --out out/a.car
expect 3 '' "{\"job\":\"get\",\"end\":\"done\",\"visits\":4,\"kept\":4,\"sections\":1,\"bytes\":$bad_bytes,\"file\":\"out/a.car\",\"skips\":[$causes]}
{\"total\":{\"jobs\":1,\"done\":1,\"skips\":3}}"
write_jobs "a $bad_text 9 $all"
run jobs "${inputs[@]}" --out out --paths --json
expect_text 'the skips' "[$causes]" "$(sed -nE 's/.*"skips":(\[.*\])\}$/\1/p' "$scratch/stdout")"
run jobs "${inputs[@]}" --out out --paths
expect_text 'the skips' "  1 malformed $(text "$(cbor "$bad")") $bad_text/0
  2 malformed $(text "$ends") $bad_text/1
  3 missing $abc_text $bad_text/2" "$(grep '^  ' "$scratch/stdout")"

begin 'paths of skips: of each job of a file, and of a part of it'
write_blocks "$twice_blocks" "$nested_block" "$listed_block"
write_jobs "a $twice_text 9 $all" "b $nested_text 9 $all" "c $abc_text,$twice_text 9 $all"
of_a="a done visits=5 kept=5 sections=2 bytes=$(((118 + ${#twice_blocks}) / 2))
$first
$second"
of_b="b done visits=7 kept=7 sections=2 bytes=$(((118 + ${#nested_block} + ${#listed_block}) / 2))
$nested_skips"
of_c="$(skip 0 missing "$abc_text" "$abc_text")
$(skip 3 missing "$abc_text" "$twice_text/0/m")
$(skip 5 missing "$abc_text" "$twice_text/1/m")"
run jobs "${inputs[@]}" --out out --paths
expect_text 'exit status' 3 "$status"
expect_text 'the jobs' "$of_a
$of_b
$of_c
total jobs=3 done=3 skips=8" "$(grep -v '^c ' "$scratch/stdout")"
run jobs "${inputs[@]}" --out out --paths --json
expect_text 'the object of the second' "[$(with_path 2 missing "$abc_text" "$nested_text/l"),$(with_path 5 codec "$(text "$other_codec")" "$nested_text/in/0/x"),$(with_path 6 hash "$(text "$other_hash")" "$nested_text/in/1")]}" "$(sed -n '2s/.*"skips"://p' "$scratch/stdout")"
rm out/*
run jobs "${inputs[@]}" --out out --paths --part 2/3
expect 3 "$of_b
total jobs=1 done=1 skips=3" ''
rm out/*
run jobs "${inputs[@]}" --out out --paths --part 1/3 --once --json
expect 3 "{\"job\":\"a\",\"end\":\"done\",\"visits\":4,\"kept\":4,\"sections\":2,\"bytes\":$(((118 + ${#twice_blocks}) / 2)),\"file\":\"out/a.car\",\"skips\":[$(with_path 2 missing "$abc_text" "$twice_text/0/m")]}
{\"total\":{\"jobs\":1,\"done\":1,\"skips\":1}}" ''

begin 'paths of skips: nothing is skipped'
write_blocks "$one_blocks"
run "${get_one[@]}" --paths --out out/a.car
expect 0 '' "get $one_line
total jobs=1 done=1 skips=0"
