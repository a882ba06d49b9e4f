# The command `verify` against what is asked for: a selector, a path, and exactly what `get` exports of it.

# The selector of the root alone.
just_root='{".":{}}'

begin 'verify: the archive of a selector is sound for that selector'
write_blocks "$one_blocks"
run "${get_one[@]}" --selector "$just_root" --out root.car
expect_text 'exit status' 0 "$status"
incomplete="root.car incomplete sections=1 bytes=138 unsound=0 skips=1
  link missing $abc_text"
run verify root.car
expect 3 "$incomplete" ''
for words in --selector=$just_root --selector-hex=$matcher --scope=block; do
  run verify root.car "$words"
  expect 0 'root.car sound sections=1 bytes=138' ''
  run verify root.car "$words" --exact
  expect 0 'root.car sound sections=1 bytes=138' ''
done
run verify root.car --selector-hex $all
expect 3 "$incomplete" ''
run verify root.car --scope all
expect 3 "$incomplete" ''
run verify root.car --exact --quiet --selector "$just_root"
expect 0 '' ''

# What isn't asked for is a finding of --exact alone. A missing block leaves a file incomplete, and one that is damaged broken.
begin 'verify: more than a selector asks for, and less'
bytes "$one_archive" >one.car
run verify one.car --selector "$just_root"
expect 0 'one.car sound sections=2 bytes=178' ''
run verify one.car --exact
expect 0 'one.car sound sections=2 bytes=178' ''
run verify one.car --selector "$just_root" --exact
expect 3 "one.car inexact sections=2 bytes=178 unsound=0 skips=0
  exact 138 surplus $abc_text" ''
run verify one.car --selector "$just_root" --exact --all
expect 3 "  exact 138 surplus $abc_text
one.car inexact sections=2 bytes=178 unsound=0 skips=0" ''
run verify one.car --selector "$just_root" --exact --json
expect 3 "{\"file\":\"one.car\",\"outcome\":\"inexact\",\"sections\":2,\"bytes\":178,\"unsound\":0,\"skips\":0,\"findings\":[],\"more\":0,\"exact\":{\"place\":138,\"reason\":\"surplus\",\"cid\":\"$abc_text\"}}" ''
run verify root.car one.car --exact
expect_text 'exit status' 2 "$status"
bytes "$(header "$one_cid")$(section "$one_cid" "$one")" >root.car
run verify root.car --exact
expect 3 "root.car incomplete sections=1 bytes=138 unsound=0 skips=1
  link missing $abc_text" ''
run verify root.car --exact --allow-missing raw
expect 0 'root.car sound sections=1 bytes=138 absent=1' ''
bytes "$(header "$one_cid")$(section "$one_cid" "$one")$(section "$abc_cid" 616264)" >damaged.car
run verify damaged.car --exact
expect 3 "damaged.car broken sections=2 bytes=178 unsound=1 skips=1
  section 138 damaged $abc_text
  link damaged $abc_text
  exact 138 damaged $abc_text" ''
run verify damaged.car --selector "$just_root"
expect 3 "damaged.car broken sections=2 bytes=178 unsound=1 skips=0
  section 138 damaged $abc_text" ''

# A section of the fork has 120 bytes, one of the list with a zero 80, one of `abc` 40, and one of the list of one link 79.
begin 'verify: sections that are swapped, repeated and left out'
fork_section=$(section "$fork_cid" "$fork")
zero_section=$(section "$with_zero_cid" "$with_zero")
abc_section=$(section "$abc_cid" "$abc")
one_section=$(section "$one_cid" "$one")
with_zero_text=$(text "$with_zero_cid")
# fork_of SECTION..: writes fork.car.
fork_of() {
  bytes "$(header "$fork_cid")" "$@" >fork.car
  run verify fork.car --exact
}
fork_of "$fork_section" "$zero_section" "$abc_section" "$one_section"
expect 0 'fork.car sound sections=4 bytes=378' ''
fork_of "$fork_section" "$one_section" "$abc_section" "$zero_section"
expect 3 "fork.car inexact sections=4 bytes=378 unsound=0 skips=0
  exact 298 order $with_zero_text" ''
run verify fork.car
expect 0 'fork.car sound sections=4 bytes=378' ''
fork_of "$fork_section" "$zero_section" "$abc_section" "$abc_section" "$one_section"
expect 3 "fork.car inexact sections=5 bytes=418 unsound=0 skips=0
  exact 299 repeated $abc_text" ''
fork_of "$fork_section" "$zero_section" "$one_section"
expect 3 "fork.car incomplete sections=3 bytes=338 unsound=0 skips=2
  link missing $abc_text
  link missing $abc_text" ''
fork_of "$fork_section" "$abc_section" "$one_section"
expect 3 "fork.car inexact sections=3 bytes=298 unsound=0 skips=1
  link missing $with_zero_text
  exact 179 surplus $abc_text" ''

# A root may be missing nowhere, and a header has one spelling.
begin 'verify: a root that is not where it has to be, and another header'
bytes "$(header "$one_cid")$abc_section" >a.car
run verify a.car --exact
expect 3 "a.car inexact sections=1 bytes=99 unsound=0 skips=1
  link missing $one_text
  exact 59 missing $one_text" ''
bytes "$(header "$one_cid")$abc_section$one_section" >b.car
run verify b.car --exact
expect 3 "b.car inexact sections=2 bytes=178 unsound=0 skips=0
  exact 59 missing $one_text" ''
bytes "$(with_length a3616101 65726f6f747381 "$(link "$one_cid")" 6776657273696f6e01)$one_blocks" >c.car
run verify c.car --exact
expect 3 "c.car inexact sections=2 bytes=181 unsound=0 skips=0
  exact 0 header" ''
bytes "$no_roots$abc_section" >none.car
run verify none.car --exact
expect 3 "none.car inexact sections=1 bytes=58 unsound=0 skips=0
  exact 0 header" ''
run verify none.car --selector "$just_root"
expect 0 'none.car sound sections=1 bytes=58' ''
bytes "$(carv2 57 178 0 "$(repeated 6 00)" "$(header "$one_cid")$abc_section$one_section" ff)" >b2.car
run verify b2.car --exact
expect 3 "b2.car inexact sections=2 bytes=236 unsound=0 skips=0
  exact 116 missing $one_text" ''

# A map of the list of one link.
begin 'verify: a path from the root'
map=a16161$(link "$one_cid")
map_cid=$(cbor "$map")
map_text=$(text "$map_cid")
bytes "$(header "$map_cid")$(section "$map_cid" "$map")$one_section$abc_section" >map.car
length=$(wc -c <map.car)
for path in a a/0; do
  run verify map.car --path $path --exact
  expect 0 "map.car sound sections=3 bytes=$length" ''
done
run verify map.car --path a --scope block
expect 0 "map.car sound sections=3 bytes=$length" ''
for words in --scope=block "--selector=$just_root" '--selector={"|":[]}'; do
  run verify map.car --path a "$words" --exact
  expect 3 "map.car inexact sections=3 bytes=$length unsound=0 skips=0
  exact $((length - 40)) surplus $abc_text" ''
done
write_blocks "$(section "$map_cid" "$map")$one_blocks"
run get --blocks blocks.car --root "$map_text/a" --scope block --out end.car
run verify end.car --path a --scope block --exact
expect 0 "end.car sound sections=2 bytes=$((length - 40))" ''
run verify end.car --path a
expect 3 "end.car incomplete sections=2 bytes=$((length - 40)) unsound=0 skips=1
  link missing $abc_text" ''

begin 'verify: a path that a file does not have'
bytes "$(header "$map_cid")$(section "$map_cid" "$map")$one_section$abc_section" >map.car
bytes "$(header "$map_cid")$(section "$map_cid" "$map")" >lacks.car
run verify map.car --path b
expect 3 '' "map.car: no key \`b\` in $map_text: it has \`a\`"
run verify lacks.car map.car --path a/1
expect 3 '' "lacks.car: missing $one_text
map.car: no index \`1\` in $one_text: there is a list of 1"
run verify lacks.car --path a --with map.car
expect 0 "lacks.car sound sections=1 bytes=$(wc -c <lacks.car)" ''

begin 'verify: what is asked for is rejected'
bytes "$one_archive" >one.car
run verify one.car --selector ''
refused 'selector: no JSON at 0'
run verify one.car --selector '{"f":{"f>":{"album":{"x":{}}}}}'
refused 'selector: unknown key "x" at /f/f>/album'
run verify one.car --selector-hex a16178a0
refused '--selector-hex: no selector: unknown key "x"'
# wrong_words LINE WORD..: the arguments are rejected with this first line.
wrong_words() {
  local line=$1
  shift
  run verify "$@"
  expect_text 'exit status' 2 "$status"
  expect_lines 'standard output' '' "$scratch/stdout"
  expect_text 'the first line' "error: $line" "$(head -n 1 "$scratch/stderr")"
}
wrong_words "the argument '--exact' cannot be used with '--with <FILE>'" one.car --exact --with one.car
wrong_words "the argument '--blocks-only' cannot be used with '--exact'" one.car --blocks-only --exact
wrong_words "the argument '--blocks-only' cannot be used with '--path <PATH>'" one.car --blocks-only --path a
wrong_words "the argument '--blocks-only' cannot be used with '--selector <JSON>'" one.car --blocks-only --selector "$just_root"
wrong_words "the argument '--selector <JSON>' cannot be used with '--scope <SCOPE>'" one.car --selector "$just_root" --scope all
wrong_words "invalid value 'x' for '--scope <SCOPE>': it is all, block or entity" one.car --scope x
wrong_words "invalid value 'a/%g' for '--path <PATH>': no two hex digits after the % at byte 2" one.car --path a/%g
bytes "$(header "$one_cid" "$abc_cid")$one_blocks" >two.car
wrong_words 'the roots in the header of two.car: --path leads on from one root, and there are 2' two.car --path 0
bytes "$no_roots$one_blocks" >none.car
wrong_words 'the roots in the header of none.car: --path leads on from one root, and there are 0' none.car --path 0
roots=()
for number in $(seq 10 79); do roots+=("$(raw "$number")"); done
bytes "$(header "${roots[@]}")" >many.car
wrong_words 'the roots in the header of many.car: --root: 70 CIDs, expected 1 to 64' many.car --exact
