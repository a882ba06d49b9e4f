# Paths after a CID, of `get`, `job`, `block` and `show`. What is wanted is written out from the formats.

inner=a26163$(link "$abc_cid")616483010203
inner_cid=$(cbor "$inner")
# The keys "", 0, .., in, li and a/b, in the order of DAG-CBOR.
tree=a660076130$(link "$abc_cid")622e2e0562696e$(link "$inner_cid")626c6982$(link "$inner_cid")$(link "$abc_cid")63612f62$(link "$abc_cid")
tree_cid=$(cbor "$tree")
tree_text=$(text "$tree_cid")
inner_text=$(text "$inner_cid")
tree_section=$(section "$tree_cid" "$tree")
inner_section=$(section "$inner_cid" "$inner")
abc_section=$(section "$abc_cid" "$abc")
path_blocks=$tree_section$inner_section$abc_section
all_hex=a16152a2616ca1646e6f6e65a0623a3ea16161a1613ea16140a0

# along VISITS SECTIONS HEX WORD..: what `get` gives of these words: so many visits and sections, and these sections.
along() {
  run get --blocks blocks.car "${@:4}"
  local archive=$(header "$tree_cid")$3
  got 0 "get done visits=$1 kept=$1 sections=$2 bytes=$((${#archive} / 2))
total jobs=1 done=1 skips=0" "$archive"
}

# leads_nowhere CODE CID LINE PATH: a path that leads no further from this block is status 4, of this code, and nothing is written.
leads_nowhere() {
  run get --blocks blocks.car --out out/a.car --root "$4"
  expect 4 '' "--root: $3"
  run get --blocks blocks.car --out out/a.car --root "$4" --json
  expect 4 '' "--root: $3
{\"error\":\"$1\",\"message\":\"--root: $3\",\"cid\":\"$2\",\"path\":\"${4//%ff/%FF}\"}"
  expect_folder out
  for command in show block; do
    run $command --blocks blocks.car "$4" --json
    expect 3 '' "$3
{\"error\":\"$1\",\"message\":\"$3\",\"cid\":\"$2\",\"path\":\"${4//%ff/%FF}\"}"
  done
}

# is_no_path WORDS WORD..: a root that is no path is rejected before a file is read.
is_no_path() {
  run get --blocks none.car "${@:2}"
  expect_text 'exit status' 2 "$status"
  expect_text 'the first line' "error: $1" "$(head -n 1 "$scratch/stderr")"
}

begin 'paths: the blocks on the way, and everything below the end'
write_blocks "$path_blocks"
along 3 3 "$path_blocks" --root "$tree_text/in/c"
along 3 3 "$path_blocks" --root "$tree_text/in"
along 3 3 "$path_blocks" --root "ipfs://$tree_text/li/0/c/"
along 3 3 "$path_blocks" --root "/ipfs/$tree_text/li/0"
along 2 2 "$tree_section$abc_section" --root "ipld://$tree_text/li/1"
along 2 2 "$tree_section$abc_section" --root "/ipld/$tree_text/0"
along 2 2 "$tree_section$abc_section" --root "$tree_text/a%2fb"
along 2 2 "$tree_section$abc_section" --root "$tree_text" --segment a/b
along 3 3 "$path_blocks" --root "$tree_text/in" --segment c
along 3 3 "$path_blocks" --root "$tree_text/i%6E" --every-arrival

begin 'paths: after roots as they are pasted'
write_blocks "$path_blocks"
base64=$(bytes "$tree_cid" | base64 -w 0 | tr -d =)
for root in "f$tree_cid" "F${tree_cid^^}" "${tree_text^^}" "u$(tr +/ -_ <<<"$base64")" "https://ipfs.io/ipfs/$tree_text" \
  "http://localhost:8080/ipld/f$tree_cid" "https://$tree_text.ipfs.dweb.link" "https://gateway.ipfs.io/ipfs/$tree_text"; do
  along 3 3 "$path_blocks" --root "$root/in/c"
done
for rest in '?filename=a/b' '#%zz' '?a#b'; do
  along 3 3 "$path_blocks" --root "https://ipfs.io/ipfs/$tree_text/in$rest" --segment c
  along 3 3 "$path_blocks" --root "ipfs://$tree_text/in/c/$rest"
done
for root in "$tree_text/in?" "https://x/ipfs/$tree_text/in%3f?"; do
  run get --blocks blocks.car --out out/a.car --root "$root"
  expect 4 '' "--root: no key \`in%3F\` in $tree_text: it has \`\`, \`0\`, \`..\`, \`in\`, \`li\`, \`a%2Fb\`"
done

# The keys %, A, a comma and a blank, an e with an acute accent, %41, U+202E and a dot, and 260 times a, in the order of DAG-CBOR.
# Each is printed so that it is that key as a segment, but for the last one, which is cut.
begin 'paths: keys are printed as segments'
long=$(repeated 260 61)
odd=a7612501614102622c200362c3a904632534310564e280ae2e06790104${long}07
odd_text=$(text "$(cbor "$odd")")
write_blocks "$(section "$(cbor "$odd")" "$odd")"
odd_keys="\`%25\`, \`A\`, \`%2C%20\`, \`é\`, \`%2541\`, \`%E2%80%AE.\`, \`$(printf 'a%.0s' $(seq 256))..\`"
leads_nowhere no-key "$odd_text" "no key \`x\` in $odd_text: it has $odd_keys" "$odd_text/x"
at=0
for key in %25 A %2C%20 é %2541 %E2%80%AE.; do
  run show --blocks blocks.car "$odd_text/$key"
  expect 0 "$((++at))" ''
done
run show --blocks blocks.car "$odd_text/%41"
expect 0 2 ''

begin 'paths: a value within a block ends with that block'
write_blocks "$path_blocks"
along 1 1 "$tree_section" --root "$tree_text/.."
along 1 1 "$tree_section" --root "$tree_text//"
along 2 2 "$tree_section$inner_section" --root "$tree_text/in/d/2"

begin 'paths: the block in which the path ends, and a selector from its end'
write_blocks "$path_blocks"
along 2 2 "$tree_section$inner_section" --root "$tree_text/in" --scope block
along 2 2 "$tree_section$inner_section" --root "$tree_text/in/d" --scope entity
along 1 1 "$tree_section" --root "$tree_text/" --scope block
along 1 1 "$tree_section" --root "$tree_text" --scope block
along 3 3 "$path_blocks" --root "$tree_text/in" --selector '{"f":{"f>":{"c":{".":{}}}}}'
along 2 2 "$tree_section$inner_section" --root "$tree_text/li/0" --selector-hex a1612ea0
for nothing in '{"|":[]}' '{"|":[{"|":[]}]}'; do
  along 2 2 "$tree_section$inner_section" --root "$tree_text/in" --selector "$nothing"
done

begin 'paths: through the digest of an identity CID'
over_inline=a16178$(link "$(cbor_inline "$inner")")
over_cid=$(cbor "$over_inline")
write_blocks "$(section "$over_cid" "$over_inline")" "$abc_section"
run get --blocks blocks.car --root "$(text "$over_cid")/x/c" --quiet
got 0 '' "$(header "$over_cid")" "$(section "$over_cid" "$over_inline")" "$abc_section"

begin 'paths: several roots with the same one'
other=a162696e$(link "$inner_cid")
other_cid=$(cbor "$other")
write_blocks "$path_blocks" "$(section "$other_cid" "$other")"
run get --blocks blocks.car --root "$tree_text/in/c,$(text "$other_cid")/in/c" --quiet
got 0 '' "$(header "$tree_cid" "$other_cid")" "$tree_section" "$inner_section" "$abc_section" "$(section "$other_cid" "$other")"
in_list=81$(link "$inner_cid")
write_blocks "$path_blocks" "$(section "$(cbor "$in_list")" "$in_list")"
other_steps='the path is by keys from one root and by indexes from another: give one `get` per root'
run get --blocks blocks.car --out out/a.car --root "$tree_text/0,$(text "$(cbor "$in_list")")/0" --json
expect 2 '' "--root: $other_steps
{\"error\":\"path\",\"message\":\"--root: $other_steps\"}"
expect_folder out

begin 'paths: a segment that is not there'
write_blocks "$path_blocks"
leads_nowhere no-key "$tree_text" "no key \`covr\` in $tree_text: it has \`\`, \`0\`, \`..\`, \`in\`, \`li\`, \`a%2Fb\`" "$tree_text/covr"
leads_nowhere no-key "$inner_text" "no key \`e\` in $inner_text: it has \`c\`, \`d\`" "$tree_text/in/e/f"
leads_nowhere no-index "$tree_text" "no index \`2\` in $tree_text: there is a list of 2" "$tree_text/li/2"
leads_nowhere no-index "$tree_text" "no index \`01\` in $tree_text: there is a list of 2" "$tree_text/li/01"
leads_nowhere no-index "$tree_text" "no index \`in\` in $tree_text: there is a list of 2" "$tree_text/li/in"
leads_nowhere no-child "$tree_text" "nothing at \`x\` in $tree_text: there is a value of kind integer" "$tree_text/../x"
leads_nowhere no-child "$abc_text" "nothing at \`x\` in $abc_text: there is a value of kind bytes" "$tree_text/0/x"
leads_nowhere no-key "$inner_text" "no key \`%00%FF\` in $inner_text: it has \`c\`, \`d\`" "$tree_text/in/%00%ff"

run get --blocks blocks.car --root "$tree_text" --segment -1 --out out/a.car
expect 4 '' "--root: no key \`-1\` in $tree_text: it has \`\`, \`0\`, \`..\`, \`in\`, \`li\`, \`a%2Fb\`"

begin 'paths: a block on the way that is missing, damaged, malformed or not read'
write_blocks "$tree_section$inner_section"
leads_nowhere missing "$abc_text" "missing $abc_text" "$tree_text/in/c"
write_blocks "$tree_section$(section "$inner_cid" "${inner}00")$abc_section"
leads_nowhere damaged "$inner_text" "damaged $inner_text" "$tree_text/in/c"
write_blocks "$(section "$(cbor ff)" ff)"
leads_nowhere malformed "$(text "$(cbor ff)")" "malformed $(text "$(cbor ff)"): indefinite length at 0" "$(text "$(cbor ff)")/a"
leads_nowhere codec "$(text "01701220$(digest 0a)")" "codec $(text "01701220$(digest 0a)")" "$(text "01701220$(digest 0a)")/a"

begin 'paths: roots that are no paths, before a file is read'
is_no_path "invalid value for '--root <ROOT>': '$tree_text/%zz': no two hex digits after the % at byte 60" --root "$tree_text/%zz"
is_no_path "invalid value for '--root <ROOT>': roots have one path in common: give one \`get\` per path" --root "$tree_text/in,$tree_text/li"
is_no_path "invalid value for '--root <ROOT>': '$tree_text$(repeated 126 2f61 | sed 's/2f61/\/a/g')': more than 125 segments" \
  --root "$tree_text$(repeated 126 2f61 | sed 's/2f61/\/a/g')"
is_no_path "invalid value for '--root <ROOT>': '$tree_text$(repeated 128 2f61 | sed 's/2f61/\/a/g')': more than 127 segments" \
  --root "$tree_text$(repeated 128 2f61 | sed 's/2f61/\/a/g')" --scope block
is_no_path "'--segment <NAME>' is given with several roots" --root "$tree_text,$abc_text" --segment a
is_no_path "'--segment <NAME>' is given without '--root <ROOT>'" --segment a
is_no_path "invalid value 'below' for '--scope <SCOPE>': it is all, block or entity" --root "$tree_text" --scope below
run get --blocks none.car --root "$tree_text" --scope block --selector '{".":{}}'
expect_text 'exit status' 2 "$status"
run get --blocks none.car --root "$tree_text/a" --selector '{'
expect 2 '' 'selector: no JSON at 1'

begin 'paths: as many segments as a selector nests'
deep=a0
for ((at = 0; at < 125; at++)); do
  deep=a16161$deep
done
write_blocks "$(section "$(cbor "$deep")" "$deep")"
run get --blocks blocks.car --root "$(text "$(cbor "$deep")")$(repeated 125 2f61 | sed 's/2f61/\/a/g')" --quiet
got 0 '' "$(header "$(cbor "$deep")")" "$(section "$(cbor "$deep")" "$deep")"
run get --blocks blocks.car --root "$(text "$(cbor "$deep")")$(repeated 125 2f61 | sed 's/2f61/\/a/g')" \
  --selector '{"f":{"f>":{"a":{"f":{"f>":{"a":{"f":{"f>":{"a":{".":{}}}}}}}}}}}' --out out/a.car
expect 2 '' '--root and --selector: the path and the selector at its end nest more than 128 deep together'
expect_folder out

begin 'job: the line of roots with a path'
write_blocks "$path_blocks"
run job photos "$tree_text/in/c" 9 --blocks blocks.car
expect 0 "photos $tree_text 9 a16166a162663ea162696ea16166a162663ea16163$all_hex" ''
cp "$scratch/stdout" jobs.txt
run jobs --blocks blocks.car --jobs jobs.txt --out out
expect_bytes out/photos.car "$(header "$tree_cid")" "$path_blocks"
run job photos "$tree_text/li/1" 9 --blocks blocks.car --scope block
expect 0 "photos $tree_text 9 a16166a162663ea1626c69a16169a2613ea1612ea0616901" ''
run job photos "$tree_text/li/1" 9 '{"|":[]}' --blocks blocks.car
expect 0 "photos $tree_text 9 a16166a162663ea1626c69a16169a2613ea1612ea0616901" ''
run job photos "$tree_text/li/0" 9 '{"f":{"f>":{"c":{".":{}}}}}' --blocks - <blocks.car
expect 0 "photos $tree_text 9 a16166a162663ea1626c69a16169a2613ea16166a162663ea16163a1612ea0616900" ''
run job photos "$tree_text/li/0" 9 '{"selector":{"f":{"f>":{"c":{".":{}}}}}}' --blocks blocks.car
expect 0 "photos $tree_text 9 a16166a162663ea1626c69a16169a2613ea16166a162663ea16163a1612ea0616900" ''
run job photos "$tree_text/in/e" 9 --blocks blocks.car
expect 3 '' "no key \`e\` in $inner_text: it has \`c\`, \`d\`"
run job photos "$tree_text/in" 0 --blocks blocks.car
expect_text 'exit status' 2 "$status"
expect_text 'the field' LIMIT "$(grep -oE '^LIMIT' "$scratch/stderr")"
run job photos "$tree_text/in" 9
expect_text 'the first line' "error: a root with a path needs '--blocks <FILE>'" "$(head -n 1 "$scratch/stderr")"
run job photos "$tree_text" 9
expect_text 'exit status' 2 "$status"
expect_text 'the first line' 'error: a selector is missing: give <JSON>, or roots with a path' "$(head -n 1 "$scratch/stderr")"

begin 'block and show: where a path leads'
write_blocks "$path_blocks"
run block --blocks blocks.car "$tree_text/in/d"
printed "$inner"
run block --blocks blocks.car "$tree_text/li/1"
printed "$abc"
run show --blocks blocks.car "$tree_text/in/d"
expect 0 '[1,2,3]' ''
run show --blocks blocks.car "ipfs://$tree_text/in"
expect 0 "{\"c\":{\"/\":\"$abc_text\"},\"d\":[1,2,3]}" ''
run show --blocks blocks.car "$tree_text/in/c"
expect 0 '{"/":{"bytes":"YWJj"}}' ''
for command in block show; do
  run $command --blocks blocks.car "$tree_text/in/e"
  expect 3 '' "no key \`e\` in $inner_text: it has \`c\`, \`d\`"
done
write_blocks "$tree_section"
for command in block show; do
  run $command --blocks blocks.car "$tree_text/in/d"
  expect 3 '' "missing $inner_text"
done
