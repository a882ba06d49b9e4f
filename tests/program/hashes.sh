# Blocks under SHA-512, and identity CIDs, which have their block in the digest: they are walked and have no section.

# one_job_gives TITLE STATUS LINES ROOT SELECTOR BLOCKS ARCHIVE: a job over the root with a limit of 100; the sections of the
# file and the archive in hex.
one_job_gives() {
  begin "$1"
  write_blocks "$6"
  write_jobs "a $(text "$4") 100 $5"
  run_jobs
  expect "$2" "$3" ''
  expect_bytes out/a.car "$7"
}

# The six jobs of the specification, whose archives are written out here as in it.
other_512_cid=${abc_512_cid%9f}9e
short_512_cid=01551320$(digest_512 "$abc" | cut -c 1-64)
version=6776657273696f6e01

one_job_gives 'SHA-512 root' 0 'a done visits=1 kept=1 sections=1 bytes=163
total jobs=1 done=1 skips=0' "$abc_512_cid" "$matcher" "$(section "$abc_512_cid" "$abc")" \
  "5aa265726f6f747381d82a584500$abc_512_cid${version}47$abc_512_cid$abc"

one_job_gives 'SHA-512 root with another last byte' 3 "a done visits=1 kept=1 sections=0 bytes=91
  0 damaged $(text "$other_512_cid")
total jobs=1 done=1 skips=1" "$other_512_cid" "$matcher" "$(section "$other_512_cid" "$abc")" \
  "5aa265726f6f747381d82a584500$other_512_cid$version"

one_job_gives 'SHA-512 root cut to 32 bytes' 3 "a done visits=1 kept=1 sections=0 bytes=59
  0 hash $(text "$short_512_cid")
total jobs=1 done=1 skips=1" "$short_512_cid" "$matcher" "$(section "$short_512_cid" "$abc")" \
  "3aa265726f6f747381d82a582500$short_512_cid$version"

one_job_gives 'identity root of an empty list' 0 'a done visits=1 kept=1 sections=0 bytes=27
total jobs=1 done=1 skips=0' 0171000180 "$all" '' "1aa265726f6f747381d82a46000171000180$version"

one_job_gives 'identity root of a list of one link' 0 'a done visits=2 kept=2 sections=1 bytes=109
total jobs=1 done=1 skips=0' "0171002a$one" "$all" "$(section "$abc_cid" "$abc")" \
  "44a265726f6f747381d82a582f000171002a$one${version}27$abc_cid$abc"

one_job_gives 'malformed identity root' 3 'a done visits=1 kept=1 sections=0 bytes=27
  0 malformed bafyqaap7
total jobs=1 done=1 skips=1' 01710001ff "$all" '' "1aa265726f6f747381d82a460001710001ff$version"

begin 'a list under SHA-512, of one block under both hash functions'
both=82$(link "$abc_cid")$(link "$abc_512_cid")
both_cid=$(cbor_512 "$both")
both_section=$(section "$both_cid" "$both")
abc_sections=$(section "$abc_cid" "$abc")$(section "$abc_512_cid" "$abc")
write_blocks "$both_section" "$abc_sections"
write_jobs "a $(text "$both_cid") 100 $all" "short $(text "$both_cid") 1 $all"
run_jobs
expect 4 "a done visits=3 kept=3 sections=3 bytes=$((91 + ${#both_section} / 2 + 40 + 72))
short limit visits=1 kept=1 sections=1 bytes=$((91 + ${#both_section} / 2))
total jobs=2 done=1 skips=0" ''
expect_bytes out/a.car "$(header "$both_cid")" "$both_section" "$abc_sections"
expect_bytes out/short.car "$(header "$both_cid")" "$both_section"

begin 'under SHA-512, what is below a damaged block is cut off, and a missing one is told'
zero_512_cid=$(cbor_512 "$with_zero")
empty_512_cid=$(raw_512 '')
lists=83$(link "$zero_512_cid")$(link "$empty_512_cid")$(link "$one_cid")
lists_section=$(section "$(cbor "$lists")" "$lists")
write_blocks "$lists_section" "$(section "$zero_512_cid" "$with_one")" "$one_blocks"
write_jobs "a $(text "$(cbor "$lists")") 100 $all"
run_jobs
expect 3 "a done visits=6 kept=5 sections=3 bytes=$((59 + ${#lists_section} / 2 + 119))
  1 damaged $(text "$zero_512_cid")
  3 missing $(text "$empty_512_cid")
total jobs=1 done=1 skips=2" ''
expect_bytes out/a.car "$(header "$(cbor "$lists")")" "$lists_section" "$one_blocks"

# None of the digest, a beginning of it, and one byte more than it has.
for length in 0 32 63 65; do
  digits=$(digest_512 "$one")00
  cut_cid=017113$(varint $length)${digits:0:2 * length}
  cut_header=$(header "$cut_cid")
  one_job_gives "a list under SHA-512 with $length bytes is not walked" 3 \
    "a done visits=1 kept=1 sections=0 bytes=$((${#cut_header} / 2))
  0 hash $(text "$cut_cid")
total jobs=1 done=1 skips=1" "$cut_cid" "$all" "$(section "$cut_cid" "$one")$(section "$abc_cid" "$abc")" "$cut_header"
done

# A leaf of 1 MB, and its section.
{ seq 100000 242856 && printf x; } >"$scratch/leaf"
leaf_cid=01551340$(sha512sum "$scratch/leaf" | cut -c 1-128)
{ bytes "$(varint 1000068)" "$leaf_cid" && cat "$scratch/leaf"; } >"$scratch/leaf.section"

begin 'a leaf of 1 MB under SHA-512, linked twice'
twice=82$(link "$leaf_cid")$(link "$leaf_cid")
{ bytes "$no_roots" "$(section "$(cbor "$twice")" "$twice")" && cat "$scratch/leaf.section"; } >blocks.car
{ bytes "$(header "$(cbor "$twice")")" "$(section "$(cbor "$twice")" "$twice")" && cat "$scratch/leaf.section"; } >whole
write_jobs "a $(text "$(cbor "$twice")") 100 $all"
run_jobs
expect 0 "a done visits=3 kept=3 sections=2 bytes=$(wc -c <whole)
total jobs=1 done=1 skips=0" ''
expect_same out/a.car whole out/a.car

begin 'a leaf of 1 MB under SHA-512 whose last byte is another'
{ bytes "$no_roots" && head -c -1 "$scratch/leaf.section" && printf y; } >blocks.car
write_jobs "a $(text "$leaf_cid") 1 $matcher"
run_jobs
expect 3 "a done visits=1 kept=1 sections=0 bytes=91
  0 damaged $(text "$leaf_cid")
total jobs=1 done=1 skips=1" ''
expect_bytes out/a.car "$(header "$leaf_cid")"

# Two identity CIDs of which the file has sections too, one with its own bytes and one with others.
begin 'identity CIDs in a block: kept, in no section, and skipped where they do not decode'
held_cid=$(cbor_inline "$with_zero")
empty_held_cid=$(raw_inline '')
links=85$(link "$held_cid")$(link "$(cbor_inline "$(link "$abc_cid")")")$(link "$empty_held_cid")$(link "$held_cid")$(link 01710001ff)
links_section=$(section "$(cbor "$links")" "$links")
links_header=$(header "$(cbor "$links")")
write_blocks "$(section "$held_cid" "$with_zero")" "$(section "$empty_held_cid" "$abc")" "$links_section" "$(section "$abc_cid" "$abc")"
write_jobs "a $(text "$(cbor "$links")") 100 $all" "short $(text "$(cbor "$links")") 2 $all" "alone $(text "$(cbor "$links")") 1 $matcher"
run_jobs
expect 4 "a done visits=9 kept=9 sections=2 bytes=$((59 + ${#links_section} / 2 + 40))
  8 malformed bafyqaap7
short limit visits=2 kept=2 sections=1 bytes=$((59 + ${#links_section} / 2))
alone done visits=1 kept=1 sections=1 bytes=$((59 + ${#links_section} / 2))
total jobs=3 done=2 skips=1" ''
expect_bytes out/a.car "$links_header" "$links_section" "$(section "$abc_cid" "$abc")"
expect_bytes out/short.car "$links_header" "$links_section"
expect_bytes out/alone.car "$links_header" "$links_section"

begin 'roots that hold their bytes, one of 300, and identity CIDs inside one another'
long_held_cid=$(raw_inline "$(repeated 300 07)")
nest_cid=$(cbor_inline "82$(link "$(cbor_inline "82$(link "$held_cid")00")")$(link "$empty_held_cid")")
write_blocks "$(section "$abc_cid" "$abc")"
write_jobs "a $(text "$long_held_cid"),$abc_text,$(text "$nest_cid") 100 $all"
run_jobs
nest_header=$(header "$long_held_cid" "$abc_cid" "$nest_cid")
expect 0 "a done visits=7 kept=7 sections=1 bytes=$((${#nest_header} / 2 + 40))
total jobs=1 done=1 skips=0" ''
expect_bytes out/a.car "$nest_header" "$(section "$abc_cid" "$abc")"
