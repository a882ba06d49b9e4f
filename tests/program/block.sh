# The commands `block` and `show`: the bytes of one block, and the block as DAG-JSON. What is wanted is written out here, as the
# DAG-JSON specification spells it.

block_of=(block --blocks blocks.car)
show_of=(show --blocks blocks.car)

# printed HEX..: status 0, these bytes on standard output, and nothing on standard error.
printed() {
  expect_text 'exit status' 0 "$status"
  expect_lines 'standard error' '' "$scratch/stderr"
  bytes "$@" >"$scratch/wanted"
  expect_same 'standard output' "$scratch/wanted" "$scratch/stdout"
}

# key_link HEX CID: a key of one byte, and a link, in hex.
key_link() {
  echo "$1d82a58$(printf '%02x' $((${#2} / 2 + 1)))00$2"
}

# shows HEX TEXT: the DAG-JSON of a block of DAG-CBOR, compact.
shows() {
  write_blocks "$(section "$(cbor "$1")" "$1")"
  run "${show_of[@]}" "$(text "$(cbor "$1")")"
  expect 0 "$2" ''
}

# lacks HEX PATH REASON: DAG-JSON can't express the part of a block at this path.
lacks() {
  write_blocks "$(section "$(cbor "$1")" "$1")"
  run "${show_of[@]}" "$(text "$(cbor "$1")")"
  expect 3 '' "$(text "$(cbor "$1")")$2: DAG-JSON can't express $3"
}

begin 'block: to standard output and to a file'
write_blocks "$one_blocks"
run "${block_of[@]}" "$abc_text"
printed "$abc"
run "${block_of[@]}" "$one_text" --out -
printed "$one"
run "${block_of[@]}" "$one_text" --out out/one
expect 0 '' ''
expect_folder out one
expect_bytes out/one "$one"
run "${block_of[@]}" "$abc_text" -o out/one --no-sync --quiet
expect 0 '' ''
expect_folder out one
expect_bytes out/one "$abc"
run block "$abc_text" --blocks - <blocks.car
printed "$abc"

begin 'block: a block of no bytes, one under SHA-512, and identity CIDs, whose block is in them'
write_blocks "$(section "$empty_cid" '')" "$(section "$abc_512_cid" "$abc")" "$(section "$(raw_inline "$abc")" 616264)"
run "${block_of[@]}" "$(text "$empty_cid")"
printed ''
run "${block_of[@]}" "$(text "$abc_512_cid")"
printed "$abc"
run "${block_of[@]}" "$(text "$(raw_inline "$abc")")"
printed "$abc"
run "${block_of[@]}" "$(text "$(cbor_inline 8101)")" --out out/list
expect 0 '' ''
expect_bytes out/list 8101

begin 'block and show: what is not sound is named, and nothing is written'
bytes ff >out/a
write_blocks "$(section "$abc_cid" 616264)" "$(section "$(cbor 8102ff)" 8102ff)" "$(section "01701220$(digest 0a)" 0a)" "$(section "01711e20$(digest 01)" 01)" "$(section "01701220$(digest 0b)" 0a)"
while read -r line; do
  cid=$(sed -E 's/^[a-z]+ ([a-z0-9]+).*/\1/' <<<"$line")
  run "${show_of[@]}" "$cid"
  expect 3 '' "$line"
done <<<"damaged $abc_text
malformed $(text "$(cbor 8102ff)"): bytes after the item at 2
malformed $(text "$(cbor_inline 8102ff)"): bytes after the item at 2
codec $(text "01701220$(digest 0a)")
hash $(text "01711e20$(digest 01)")
missing $(text "$(raw 00)")"
while read -r word cid; do
  run "${block_of[@]}" "$cid"
  expect 3 '' "$word $cid"
  run "${block_of[@]}" "$cid" --out out/a
  expect 3 '' "$word $cid"
done <<<"damaged $abc_text
damaged $(text "01701220$(digest 0b)")
hash $(text "01711e20$(digest 01)")
missing $(text "$(raw 00)")
missing $(text "01701220$(digest 0c)")"
expect_folder out a
expect_bytes out/a ff

begin 'block: one of any codec, also where a path ends with a link to it'
pb=01701220$(digest 0a)
other=0181021340$(digest_512 0a)
linked=a161$(key_link 70 "$pb")
write_blocks "$(section "$pb" 0a)" "$(section "$other" 0a)" "$(section "$(cbor "$linked")" "$linked")"
for cid in "$(text "$pb")" "$(text "$other")" "$(text "$(cbor "$linked")")/p"; do
  run "${block_of[@]}" "$cid"
  printed 0a
done
run "${show_of[@]}" "$(text "$(cbor "$linked")")/p"
expect 3 '' "codec $(text "$pb")"
run "${block_of[@]}" "$(text "$(cbor "$linked")")/p/x"
expect 3 '' "codec $(text "$pb")"

begin 'block: one that does not decode is written, with a note of its first error'
while read -r block cause; do
  linked=a161$(key_link 62 "$(cbor "$block")")
  write_blocks "$(section "$(cbor "$block")" "$block")" "$(section "$(cbor "$linked")" "$linked")"
  for cid in "$(text "$(cbor "$block")")" "$(text "$(cbor "$linked")")/b"; do
    run "${block_of[@]}" "$cid"
    expect_text 'exit status' 0 "$status"
    expect_lines 'standard error' "note: malformed $(text "$(cbor "$block")"): $cause" "$scratch/stderr"
    bytes "$block" >"$scratch/wanted"
    expect_same 'standard output' "$scratch/wanted" "$scratch/stdout"
    run "${show_of[@]}" "$cid"
    expect 3 '' "malformed $(text "$(cbor "$block")"): $cause"
  done
  run "${block_of[@]}" "$(text "$(cbor "$linked")")/b/0"
  expect 3 '' "malformed $(text "$(cbor "$block")"): $cause"
done <<<"a2626161016161 key order at 5
8201 truncated at 2
811805 not shortest at 1
9f00ff indefinite length at 0
81c100 tag at 1
d82a4101 link at 0
81f7 simple value at 1
fa3fc00000 float at 0
a10100 key kind at 1
0000 bytes after the item at 1
$(repeated 513 81)00 nesting at 512"
run "${block_of[@]}" "$(text "$(cbor_inline 8102ff)")" --out out/inline
expect 0 '' "note: malformed $(text "$(cbor_inline 8102ff)"): bytes after the item at 2"
expect_bytes out/inline 8102ff

begin 'block and show: of several copies the first counts, in one file or in several, or the first that is sound'
bytes "$no_roots" "$(section "$abc_cid" 616264)" >a.car
bytes "$no_roots" "$(section "$abc_cid" "$abc")" >b.car
run block "$abc_text" --blocks a.car --blocks b.car
expect 3 '' "damaged $abc_text"
run block "$abc_text" --blocks b.car --blocks a.car
printed "$abc"
run block "$abc_text" --blocks a.car --blocks b.car --prefer-sound --out out/abc
expect 0 '' 'note: 1 block from a later copy'
expect_bytes out/abc "$abc"
run show "$abc_text" --blocks a.car --blocks b.car --prefer-sound
expect 0 '{"/":{"bytes":"YWJj"}}' 'note: 1 block from a later copy'

begin 'block and show: words that are rejected'
write_blocks "$one_blocks"
for command in block show; do
  run "$command" --blocks blocks.car bafy
  expect_text 'exit status' 2 "$status"
  expect_text 'the first line' "error: invalid value for '<CID[/PATH]>': 'bafy': not a CID: " "$(grep -oE "^error: .*not a CID: " "$scratch/stderr")"
  run "$command" --blocks none.car "$one_text"
  refused 'cannot read none.car: No such file or directory (os error 2)'
  run "$command" --blocks blocks.car "$one_text" --max-input 10
  refused 'too large blocks.car: an input has at most 10 bytes: --max-input allows more'
  run "$command" --blocks - --blocks - "$one_text"
  expect_text 'exit status' 2 "$status"
  expect_text 'standard output' 0 "$(wc -c <"$scratch/stdout")"
done

begin 'block: an output that is rejected, or that fails, leaves nothing'
write_blocks "$one_blocks"
run "${block_of[@]}" "$abc_text" --out none/abc
refused 'cannot write none/abc: No such file or directory (os error 2); its directory must exist'
run "${block_of[@]}" "$abc_text" --out ''
expect_text 'exit status' 2 "$status"
run "${block_of[@]}" "$abc_text" --out blocks.car
expect_text 'exit status' 2 "$status"
expect_bytes blocks.car "$no_roots" "$one_blocks"
large=$(repeated 4000 61)
write_blocks "$(section "$(raw "$large")" "$large")"
run_with_room 2 "${block_of[@]}" "$(text "$(raw "$large")")" --out out/large
refused 'cannot write out/large: File too large (os error 27)'
expect_folder out
if [ -w /dev/full ]; then
  status=0
  "$program" "${block_of[@]}" "$(text "$(raw "$large")")" >/dev/full 2>"$scratch/stderr" || status=$?
  : >"$scratch/stdout"
  refused 'cannot write -: No space left on device (os error 28)'
fi

begin 'show: each kind of data'
shows f6 null
shows f4 false
shows f5 true
shows 00 0
shows 1903e8 1000
shows 1b0020000000000001 9007199254740993
shows 1bffffffffffffffff 18446744073709551615
shows 20 -1
shows 3b0020000000000000 -9007199254740993
shows 3bffffffffffffffff -18446744073709551616
shows fb0000000000000000 0.0
shows fb8000000000000000 -0.0
shows fb3ff8000000000000 1.5
shows fb3fb999999999999a 0.1
shows fb0000000000000001 5e-324
shows fb7fefffffffffffff 1.7976931348623157e308
shows 40 '{"/":{"bytes":""}}'
shows 41ff '{"/":{"bytes":"/w"}}'
shows 43616263 '{"/":{"bytes":"YWJj"}}'
shows 60 '""'
shows 63e282ac '"€"'
shows 6822085c2f0a091f7f '"\"\b\\/\n\t\u001f'$'\x7f''"'
shows 80 '[]'
shows 830180820203 '[1,[],[2,3]]'
shows a0 '{}'
shows "$one" "[{\"/\":\"$abc_text\"}]"
shows "$(link "1220$(digest "$abc")")" '{"/":"QmatYkNGZnELf8cAGdyJpUca2PyY4szai3RHyyWofNY1pY"}'

begin 'show: the keys of a map are in the order of their bytes, in each map'
shows a261620162616302 '{"ac":2,"b":1}'
shows a26162a2617a0162616102626163f6 '{"ac":null,"b":{"aa":2,"z":1}}'
shows 82a0a4600061410162c3a90263616263f6 '[{},{"":0,"A":1,"abc":null,"é":2}]'

begin 'show: what DAG-JSON has no form for'
lacks 61ff '' 'text that is not UTF-8'
lacks 820161ff /1 'text that is not UTF-8'
lacks a16161820182f661c0 /a/1/1 'text that is not UTF-8'
lacks a1612f01 '' 'the key /, which DAG-JSON reserves for links and bytes'
lacks 81a2612fa161610163612f6201 /0 'the key /, which DAG-JSON reserves for links and bytes'
lacks a161ff01 '' 'a key that is not UTF-8: %FF'
lacks a163612f2561ff /a%2F%25 'text that is not UTF-8'
lacks a164c3a4200a61ff /%C3%A4%20%0A 'text that is not UTF-8'

begin 'show: a raw block is bytes'
write_blocks "$one_blocks"
run "${show_of[@]}" "$abc_text"
expect 0 '{"/":{"bytes":"YWJj"}}' ''
run "${show_of[@]}" "$abc_text" --pretty
expect 0 '{
  "/": {
    "bytes": "YWJj"
  }
}' ''

begin 'show: indented'
nested=a261618201a06162818240d82a$(printf '58250001551220%s' "$(digest "$abc")")
write_blocks "$(section "$(cbor "$nested")" "$nested")"
run "${show_of[@]}" "$(text "$(cbor "$nested")")" --pretty
expect 0 "{
  \"a\": [
    1,
    {}
  ],
  \"b\": [
    [
      {
        \"/\": {
          \"bytes\": \"\"
        }
      },
      {
        \"/\": \"$abc_text\"
      }
    ]
  ]
}" ''

if command -v script >/dev/null; then
  # at_terminal WORD..: the program with a terminal as its outputs, its lines in $scratch/terminal.
  at_terminal() {
    status=0
    script -qec "$(printf '%q ' "$program" "$@")" /dev/null </dev/null | tr -d '\r' >"$scratch/terminal" || status=$?
  }

  begin 'block: a terminal is refused'
  write_blocks "$one_blocks"
  at_terminal "${block_of[@]}" "$abc_text"
  expect_text 'exit status' 2 "$status"
  expect_text 'the terminal' "error: the block would go to a terminal: give '--out <FILE>', or redirect standard output" "$(head -n 1 "$scratch/terminal")"
  at_terminal "${block_of[@]}" "$abc_text" --out out/abc
  expect_text 'exit status' 0 "$status"
  expect_bytes out/abc "$abc"

  begin 'show: a terminal gets it indented, a raw block by its first bytes'
  write_blocks "$one_blocks"
  at_terminal "${show_of[@]}" "$one_text"
  expect_lines 'the terminal' "[
  {
    \"/\": \"$abc_text\"
  }
]" "$scratch/terminal"
  at_terminal "${show_of[@]}" "$abc_text"
  expect_lines 'the terminal' 'raw, 3 bytes
616263' "$scratch/terminal"
  sixty_five=$(repeated 64 ab)cd
  write_blocks "$(section "$(raw "$sixty_five")" "$sixty_five")" "$(section "$empty_cid" '')"
  at_terminal "${show_of[@]}" "$(text "$(raw "$sixty_five")")"
  expect_lines 'the terminal' "raw, 65 bytes
$(repeated 64 ab)" "$scratch/terminal"
  at_terminal "${show_of[@]}" "$(text "$empty_cid")"
  expect_lines 'the terminal' 'raw, 0 bytes' "$scratch/terminal"

  begin 'show: what a terminal would hide or obey is escaped there, in texts and in keys'
  # ESC, DEL, U+009B, U+061C, U+200E, U+202E, U+2066 and U+2069 between a and b; U+00A0, U+200D, U+202F and U+2065 are none of them.
  hidden=1b7fc29bd89ce2808ee280aee281a6e281a9
    hostile=82$(item_head 3 $((2 + ${#hidden} / 2)))61${hidden}62a1$(item_head 3 3)e280aa6bc2a0e2808de280afe281a5
  write_blocks "$(section "$(cbor "$hostile")" "$hostile")"
  at_terminal "${show_of[@]}" "$(text "$(cbor "$hostile")")"
  expect_lines 'the terminal' "[
  \"a\\u001b\\u007f\\u009b\\u061c\\u200e\\u202e\\u2066\\u2069b\",
  {
    \"\\u202a\": \"$(bytes c2a0e2808de280afe281a5)\"
  }
]" "$scratch/terminal"
  run "${show_of[@]}" "$(text "$(cbor "$hostile")")"
  expect 0 "[\"a\\u001b$(bytes "${hidden:2}")b\",{\"$(bytes e280aa)\":\"$(bytes c2a0e2808de280afe281a5)\"}]" ''
fi
