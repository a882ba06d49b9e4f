# Jobs that go into a CID once, by the word --once: the first time that it is arrived at with what is then left of the selector,
# and only where its block is sound.

run_once() {
  run jobs --blocks blocks.car --jobs jobs.txt --out out --once
}

# once_gives TITLE STATUS LINES ROOT LIMIT SELECTOR BLOCKS SECTIONS: one job over the root; the archive has the sections.
once_gives() {
  begin "$1"
  write_blocks "$7"
  write_jobs "a $(text "$4") $5 $6"
  run_once
  expect "$2" "$3" ''
  expect_bytes out/a.car "$(header "$4")" "$8"
}

# size HEX..: how many bytes these are.
size() {
  local all
  all=$(printf '%s' "$@")
  echo $((${#all} / 2))
}

begin 'the example: archives of jobs within their limit are the same once and at every arrival'
mkdir each
run jobs --blocks "$top/examples/library.car" --jobs "$top/examples/library.jobs" --out each
run jobs --blocks "$top/examples/library.car" --jobs "$top/examples/library.jobs" --out out --once
expect_text 'exit status' 4 "$status"
expect_text 'the whole library' 'whole done visits=10 kept=10 sections=6 bytes=784' "$(head -n 1 "$scratch/stdout")"
for name in whole album front parts; do
  expect_same "$name" "each/$name.car" "out/$name.car"
done

# Forty layers, each a list of two links to the next: 2^41 - 1 arrivals, and 81 where each is gone into once.
layer=80
layer_cid=$(cbor "$layer")
layers=$(section "$layer_cid" "$layer")
for _ in $(seq 40); do
  layer=82$(link "$layer_cid")$(link "$layer_cid")
  layer_cid=$(cbor "$layer")
  layers=$(section "$layer_cid" "$layer")$layers
done
once_gives 'forty layers, each linked to twice' 0 "a done visits=81 kept=81 sections=41 bytes=$(size "$(header "$layer_cid")" "$layers")
total jobs=1 done=1 skips=0" "$layer_cid" 81 "$all" "$layers" "$layers"

begin 'the same at every arrival'
write_blocks "$layers"
write_jobs "a $(text "$layer_cid") 81 $all"
run_jobs
expect 4 "a limit visits=81 kept=81 sections=41 bytes=$(size "$(header "$layer_cid")" "$layers")
total jobs=1 done=0 skips=0" ''

begin 'one visit fewer is the limit'
write_blocks "$layers"
write_jobs "a $(text "$layer_cid") 80 $all"
run_once
expect 4 "a limit visits=80 kept=80 sections=41 bytes=$(size "$(header "$layer_cid")" "$layers")
total jobs=1 done=0 skips=0" ''

# What is linked to from a damaged block first and from a sound one after it. The damaged block is stored under the CID of another.
damaged_cid=$(cbor 8100)
damaged=81$(link "$one_cid")
both=82$(link "$damaged_cid")$(link "$one_cid")
both_cid=$(cbor "$both")
both_sections=$(section "$both_cid" "$both")$one_blocks
once_gives 'a part is met below a damaged block and then below a sound one' 3 "a done visits=4 kept=4 sections=3 bytes=$(size "$(header "$both_cid")" "$both_sections")
  1 damaged $(text "$damaged_cid")
total jobs=1 done=1 skips=1" "$both_cid" 4 "$all" "$both_sections$(section "$damaged_cid" "$damaged")" "$both_sections"

# Two ways to one block: nothing below it is entered by the first, everything by the second.
ways=a26161$(link "$one_cid")6162$(link "$one_cid")
ways_cid=$(cbor "$ways")
by_two=$("$program" selector '{"f":{"f>":{"a":{".":{}},"b":{"R":{"l":{"none":{}},":>":{"a":{">":{"@":{}}}}}}}}}')
ways_sections=$(section "$ways_cid" "$ways")$one_blocks
once_gives 'a block is gone into with each rest of the selector' 0 "a done visits=4 kept=4 sections=3 bytes=$(size "$(header "$ways_cid")" "$ways_sections")
total jobs=1 done=1 skips=0" "$ways_cid" 10 "$by_two" "$ways_sections" "$ways_sections"

# A block that is met where no level is left, and then with one left.
middle=81$(link "$one_cid")
middle_cid=$(cbor "$middle")
deep=82$(link "$middle_cid")$(link "$one_cid")
deep_cid=$(cbor "$deep")
three_levels=$("$program" selector '{"R":{"l":{"depth":3},":>":{"a":{">":{"@":{}}}}}}')
deep_sections=$(section "$deep_cid" "$deep")$(section "$middle_cid" "$middle")$one_blocks
once_gives 'a block is met with no level left, and then with one' 0 "a done visits=5 kept=5 sections=4 bytes=$(size "$(header "$deep_cid")" "$deep_sections")
total jobs=1 done=1 skips=0" "$deep_cid" 10 "$three_levels" "$deep_sections" "$deep_sections"

# A damaged block that links to itself is not gone into.
loop=81$(link "$damaged_cid")
around=81$(link "$damaged_cid")
around_cid=$(cbor "$around")
once_gives 'a damaged cycle' 3 "a done visits=2 kept=2 sections=1 bytes=$(size "$(header "$around_cid")" "$(section "$around_cid" "$around")")
  1 damaged $(text "$damaged_cid")
total jobs=1 done=1 skips=1" "$around_cid" 10 "$all" "$(section "$around_cid" "$around")$(section "$damaged_cid" "$loop")" "$(section "$around_cid" "$around")"

# An identity CID is gone into once, in its own bytes.
inside=$(cbor_inline "$one")
twice=82$(link "$inside")$(link "$inside")
twice_cid=$(cbor "$twice")
twice_sections=$(section "$twice_cid" "$twice")$(section "$abc_cid" "$abc")
once_gives 'an identity CID twice' 0 "a done visits=4 kept=4 sections=2 bytes=$(size "$(header "$twice_cid")" "$twice_sections")
total jobs=1 done=1 skips=0" "$twice_cid" 10 "$all" "$twice_sections" "$twice_sections"

begin 'what one job went into is gone into by the next'
write_blocks "$one_blocks"
write_jobs "a $one_job" "b $one_job"
run_once
expect 0 "a $one_line
b $one_line
total jobs=2 done=2 skips=0" ''
expect_bytes out/a.car "$one_archive"
expect_bytes out/b.car "$one_archive"
