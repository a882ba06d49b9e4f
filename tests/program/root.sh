# The command `root`: its archives, and what it rejects.

# The whole archive of `abc`.
abc_archive=$(header "$abc_cid")$(section "$abc_cid" "$abc")

# root_gives TITLE TEXT INPUT ARCHIVE, input and archive in hex.
root_gives() {
  begin "$1"
  run root --cid "$2" <<<"$3"
  expect 0 "$4" ''
}

begin 'the example of one root'
run root --cid "$abc_text" <"$top/examples/abc.car.hex"
expect 0 "$abc_archive" ''

begin 'hexadecimal in upper case, with blanks and line ends between any two digits'
printf '%s' "$no_roots" "$(section "$abc_cid" "$abc")" | tr a-f A-F | sed 's/.\{31\}/& \t\r\n/g' >input
run root --cid "$abc_text" <input
expect 0 "$abc_archive" ''

root_gives 'a root with an empty block' "$(text "$empty_cid")" \
  "$no_roots$(section "$empty_cid" '')" "$(header "$empty_cid")$(section "$empty_cid" '')"
root_gives 'a root that is a list: its block alone' "$(text "$one_cid")" \
  "$no_roots$(section "$abc_cid" "$abc")$(section "$one_cid" "$one")" "$(header "$one_cid")$(section "$one_cid" "$one")"
root_gives 'a root that is missing: the header alone' "$abc_text" "$no_roots" "$(header "$abc_cid")"
root_gives 'a root that is damaged' "$abc_text" "$no_roots$(section "$abc_cid" 616264)" "$(header "$abc_cid")"
root_gives 'the first section of a CID counts' "$abc_text" \
  "$no_roots$(section "$abc_cid" 616264)$(section "$abc_cid" "$abc")" "$(header "$abc_cid")"
root_gives 'a root that does not decode' "$(text "$(cbor 1805)")" \
  "$no_roots$(section "$(cbor 1805)" 1805)" "$(header "$(cbor 1805)")"
foreign=01701220$(digest "$abc")
root_gives 'a root of another codec' "$(text "$foreign")" "$no_roots$(section "$foreign" "$abc")" "$(header "$foreign")"
root_gives 'a root with a CID of four bytes, which holds an empty block: the header alone' bafkqaaa "$no_roots" \
  19a265726f6f747381d82a4500015500006776657273696f6e01
root_gives 'a root that holds a list with a link' "$(text "$(cbor_inline "$one")")" \
  "$no_roots$one_blocks" "$(header "$(cbor_inline "$one")")"
root_gives 'a root that holds bytes that do not decode' bafyqaap7 "$no_roots" "$(header 01710001ff)"
root_gives 'a root that holds its block, where the file has a section under it' "$(text "$(raw_inline "$abc")")" \
  "$no_roots$(section "$(raw_inline "$abc")" "$abc")" "$(header "$(raw_inline "$abc")")"
root_gives 'a root under SHA-512' "$(text "$abc_512_cid")" \
  "$no_roots$(section "$abc_512_cid" "$abc")" "$(header "$abc_512_cid")$(section "$abc_512_cid" "$abc")"
root_gives 'a damaged root under SHA-512' "$(text "$abc_512_cid")" \
  "$no_roots$(section "$abc_512_cid" 616264)" "$(header "$abc_512_cid")"
root_gives 'a root under SHA-512 that does not decode' "$(text "$(cbor_512 1805)")" \
  "$no_roots$(section "$(cbor_512 1805)" 1805)" "$(header "$(cbor_512 1805)")"

# root_refuses LINE TEXT INPUT
root_refuses() {
  begin "root --cid '$2' with the input '$3'"
  run root --cid "$2" <<<"$3"
  refused "$1"
}

root_refuses 'root: multibase' '' "$no_roots"
root_refuses 'root: multibase' zabc "$no_roots"
root_refuses 'root: multibase' "B${abc_text#b}" "$no_roots"
root_refuses 'root: base32' ba "$no_roots"
root_refuses 'root: base32' bafkqaab "$no_roots"
root_refuses 'root: base32' bafkqaa1 "$no_roots"
root_refuses 'root: rest' bafkqaaaa "$no_roots"
root_refuses 'root: truncated' b "$no_roots"
root_refuses 'root: truncated' bae "$no_roots"
root_refuses 'root: truncated' "$(text "${abc_cid%??}")" "$no_roots"
root_refuses 'root: varint' "$(text 8100)" "$no_roots"
root_refuses 'root: varint' "$(text 01ffffffffffffffffff01)" "$no_roots"
root_refuses 'root: version 2' "$(text 02)" "$no_roots"
root_refuses 'root: version 18' "$(text "1220$(digest "$abc")")" "$no_roots"
root_refuses 'root: version 9223372036854775807' "$(text ffffffffffffffff7f)" "$no_roots"
root_refuses 'input: hex' "$abc_text" 11a
root_refuses 'input: hex' "$abc_text" 1g
root_refuses 'blocks: truncated at 0' "$abc_text" ''
root_refuses 'blocks: cid at 18' "$abc_text" "${no_roots}00"
# The text comes before the input, and its digits before what they mean.
root_refuses 'root: multibase' zabc 1g
root_refuses 'input: hex' "$abc_text" 000
