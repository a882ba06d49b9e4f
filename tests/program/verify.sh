# The command `verify`: sections by their own bytes, and what the roots call for.

# The list of one link, its header, and its blocks.
begin 'verify: a sound file'
bytes "$one_archive" >blocks.car
run verify blocks.car
expect 0 "blocks.car sound sections=2 bytes=178" ''
run verify --blocks-only --verifiers 64 - <blocks.car
expect 0 "- sound sections=2 bytes=178" ''

begin 'verify: several files, of which the worst tells the status'
bytes "$one_archive" >a.car
bytes "$(header "$one_cid")$(section "$one_cid" "$one")" >b.car
bytes 00 >c.car
run verify b.car a.car
expect 3 "b.car incomplete sections=1 bytes=138 unsound=0 skips=1
  link missing $abc_text
a.car sound sections=2 bytes=178" ''
run verify c.car none a.car b.car --blocks-only
expect 2 "a.car sound sections=2 bytes=178
b.car sound sections=1 bytes=138" "c.car: header at 0: not a CARv1 file
cannot read none: No such file or directory (os error 2)"

# gzip, text and an empty file, and a section that is cut.
begin 'verify: what a file is that is rejected, among FILEs and in --with'
bytes "$one_archive" >a.car
bytes 1f8b0800 >a.gz
bytes 6162630a >a.txt
: >empty.car
bytes "$no_roots" 2701551220ba7816bf8f >cut.car
run verify a.gz a.txt a.car empty.car cut.car
expect 2 "a.car sound sections=2 bytes=178" "a.gz: truncated at 0: compressed by gzip
a.txt: truncated at 0: plain text
empty.car: truncated at 0: an empty file
cut.car: truncated at 18: ix_export inspect says how to keep the sections before it"
run verify a.car --with a.gz
refused 'a.gz: truncated at 0: compressed by gzip'
run verify a.car --with a.car --with cut.car
refused 'cut.car: truncated at 18: ix_export inspect says how to keep the sections before it'

begin 'verify: a section that stands twice, the second damaged'
bytes "$one_archive$(section "$abc_cid" 616264)" >blocks.car
run verify blocks.car
expect 3 "blocks.car broken sections=3 bytes=218 unsound=1 skips=0
  section 178 damaged $abc_text" ''

begin 'verify: a section that stands twice, the first damaged'
bytes "$(header "$one_cid")$(section "$abc_cid" 616264)$one_blocks" >blocks.car
run verify blocks.car
expect 3 "blocks.car broken sections=3 bytes=218 unsound=1 skips=1
  section 59 damaged $abc_text
  link damaged $abc_text" ''

begin 'verify: malformed DAG-CBOR, another codec and another hash, and a CID that holds other bytes'
foreign=01701220$(digest "$abc")
inline=$(raw_inline "$abc")
short=01551202ba78
write_blocks "$(section "$(cbor 1805)" 1805)$(section "$foreign" "$abc")$(section "$short" "$abc")$(section "$inline" "$abc")$(section "$inline" 616264)"
run verify blocks.car
expect 3 "blocks.car broken sections=5 bytes=$(wc -c <blocks.car) unsound=3 skips=0
  section 18 malformed $(text "$(cbor 1805)"): not shortest at 0
  section 97 hash $(text "$short")
  section 118 damaged $(text "$inline")" ''

begin 'verify: the first error of what is malformed, of sections and of links, as text and as JSON'
bad=a2626161016161
ends=$(cbor_inline 8102ff)
links=82$(link "$(cbor "$bad")")$(link "$ends")
bytes "$(header "$(cbor "$links")")$(section "$(cbor "$links")" "$links")$(section "$(cbor "$bad")" "$bad")" >blocks.car
place=$(($(wc -c <blocks.car) - 1 - 36 - ${#bad} / 2))
run verify blocks.car
expect 3 "blocks.car broken sections=2 bytes=$(wc -c <blocks.car) unsound=1 skips=2
  section $place malformed $(text "$(cbor "$bad")"): key order at 5
  link malformed $(text "$(cbor "$bad")"): key order at 5
  link malformed $(text "$ends"): bytes after the item at 2" ''
run verify blocks.car --json
expect 3 "{\"file\":\"blocks.car\",\"outcome\":\"broken\",\"sections\":2,\"bytes\":$(wc -c <blocks.car),\"unsound\":1,\"skips\":2,\"findings\":[{\"section\":$place,\"verdict\":\"malformed\",\"cid\":\"$(text "$(cbor "$bad")")\",\"cause\":\"key order\",\"offset\":5},{\"link\":\"malformed\",\"cid\":\"$(text "$(cbor "$bad")")\",\"cause\":\"key order\",\"offset\":5},{\"link\":\"malformed\",\"cid\":\"$(text "$ends")\",\"cause\":\"bytes after the item\",\"offset\":2}],\"more\":0}" ''

# What dag-pb links to isn't followed, so a root of it leaves the file unsupported. Its section is judged all the same, under a
# CID of either version.
begin 'verify: a codec that is not read'
bytes "$(header "$foreign")$(section "$foreign" "$abc")" >right.car
bytes "$(header "$foreign")$(section "$foreign" 616264)" >wrong.car
bytes "$no_roots$(section "1220$(digest "$abc")" "$abc")" >version-0.car
run verify right.car
expect 3 "right.car unsupported sections=1 bytes=99 unsound=0 skips=1
  link codec $(text "$foreign")" ''
run verify wrong.car
expect 3 "wrong.car broken sections=1 bytes=99 unsound=1 skips=1
  section 59 damaged $(text "$foreign")
  link codec $(text "$foreign")" ''
run verify version-0.car
expect 0 'version-0.car sound sections=1 bytes=56' ''
run verify --blocks-only right.car wrong.car version-0.car
expect 3 "right.car sound sections=1 bytes=99
wrong.car broken sections=1 bytes=99 unsound=1 skips=0
  section 59 damaged $(text "$foreign")
version-0.car sound sections=1 bytes=56" ''

# BLAKE3 has the code 1e. Its digest isn't computed, so any will do here.
begin 'verify: a hash that is not known, and the worst of two outcomes'
blake=01551e20$(digest "$abc")
bytes "$no_roots$(section "$blake" "$abc")" >hash.car
bytes "$(header "$one_cid")$(section "$one_cid" "$one")$(section "$blake" "$abc")" >lacks.car
bytes "$no_roots$(section "$blake" "$abc")$(section "$abc_cid" 616264)" >damaged.car
run verify hash.car
expect 3 "hash.car unsupported sections=1 bytes=58 unsound=1 skips=0
  section 18 hash $(text "$blake")" ''
run verify lacks.car
expect 3 "lacks.car unsupported sections=2 bytes=178 unsound=1 skips=1
  section 138 hash $(text "$blake")
  link missing $abc_text" ''
run verify damaged.car
expect 3 "damaged.car broken sections=2 bytes=98 unsound=2 skips=0
  section 18 hash $(text "$blake")
  section 58 damaged $abc_text" ''
run verify --blocks-only hash.car
expect 3 "hash.car unsupported sections=1 bytes=58 unsound=1 skips=0
  section 18 hash $(text "$blake")" ''
bytes "$(header "$blake")" >root.car
run verify root.car --allow-missing all
expect 3 "root.car unsupported sections=0 bytes=59 unsound=0 skips=1 absent=0
  link hash $(text "$blake")" ''

# The archive of a selector that takes the root alone, and one of a library that lacks a block.
begin 'verify: what get writes is incomplete where it leaves blocks out'
write_blocks "$one_blocks"
run "${get_one[@]}" --selector '{".":{}}' --out root.car
write_blocks "$(section "$one_cid" "$one")"
run "${get_one[@]}" --out lacks.car
expect_text 'exit status' 3 "$status"
for file in root.car lacks.car; do
  run verify $file
  expect 3 "$file incomplete sections=1 bytes=138 unsound=0 skips=1
  link missing $abc_text" ''
  run verify --blocks-only $file
  expect 0 "$file sound sections=1 bytes=138" ''
done

# A list with two links to each of two blocks that aren't there, one raw and one of DAG-CBOR, and one link to each root.
begin 'verify: what may be missing'
list=84$(link "$abc_cid")$(link "$one_cid")$(link "$abc_cid")$(link "$one_cid")
list_cid=$(cbor "$list")
bytes "$(header "$list_cid")$(section "$list_cid" "$list")" >links.car
length=$(wc -c <links.car)
raw_missing="  link missing $abc_text
  link missing $abc_text"
cbor_missing="  link missing $one_text
  link missing $one_text"
run verify links.car --allow-missing raw
expect 3 "links.car incomplete sections=1 bytes=$length unsound=0 skips=2 absent=2
$cbor_missing" ''
run verify links.car --allow-missing dag-cbor
expect 3 "links.car incomplete sections=1 bytes=$length unsound=0 skips=2 absent=2
$raw_missing" ''
for which in all raw,dag-cbor dag-cbor,raw,raw; do
  run verify links.car --allow-missing $which
  expect 0 "links.car sound sections=1 bytes=$length absent=4" ''
done
run verify links.car --allow-missing all -q
expect 0 '' ''

# A root is never absent, whichever way a link leads to it: alone, or of more than a job may have.
begin 'verify: no root may be missing, and no block damaged'
bytes "$(header "$abc_cid")" >root.car
run verify root.car --allow-missing all
expect 3 "root.car incomplete sections=0 bytes=59 unsound=0 skips=1 absent=0
  link missing $abc_text" ''
bytes "$(header "$one_cid" "$abc_cid")$(section "$one_cid" "$one")" >linked.car
run verify linked.car --allow-missing all
expect 3 "linked.car incomplete sections=1 bytes=$(wc -c <linked.car) unsound=0 skips=2 absent=0
  link missing $abc_text
  link missing $abc_text" ''
roots=()
for number in $(seq 10 79); do roots+=("$(raw "$number")"); done
bytes "$(header "${roots[@]}" "$one_cid")$(section "$one_cid" "$one")" >many.car
run verify many.car --allow-missing raw
expect_text 'the first line' "many.car incomplete sections=1 bytes=$(wc -c <many.car) unsound=0 skips=70 absent=1" "$(head -n 1 "$scratch/stdout")"
bytes "$(header "$one_cid")$(section "$one_cid" "$one")$(section "$abc_cid" 616264)" >damaged.car
run verify damaged.car --allow-missing all
expect 3 "damaged.car broken sections=2 bytes=178 unsound=1 skips=1 absent=0
  section 138 damaged $abc_text
  link damaged $abc_text" ''

begin 'verify: other words for what may be missing, which are those of get'
for which in '' none RAW raw, ,raw 'raw, dag-cbor' dag-pb; do
  word=${which#raw,}
  word=${word%,raw}
  run verify links.car --allow-missing "$which"
  expect_text 'exit status' 2 "$status"
  expect_text 'the first line' "error: invalid value '$which' for '--allow-missing <WHICH>': '$word' is none of raw, dag-cbor and all" "$(head -n 1 "$scratch/stderr")"
done
bytes "$(header "$one_cid")$(section "$one_cid" "$one")" >links.car
run verify links.car --allow-missing raw,all
expect_text 'exit status' 0 "$status"

begin 'verify: under SHA-512'
bytes "$(header "$(cbor_512 "$one")")$(section "$(cbor_512 "$one")" "$one")$(section "$abc_cid" "$abc")" >blocks.car
run verify blocks.car
expect 0 "blocks.car sound sections=2 bytes=$(wc -c <blocks.car)" ''

begin 'verify: no roots call for nothing'
write_blocks "$(section "$one_cid" "$one")"
run verify blocks.car
expect 0 "blocks.car sound sections=1 bytes=$(wc -c <blocks.car)" ''

begin 'verify: each root is walked, more than a job may have'
roots=()
for _ in $(seq 70); do roots+=("$abc_cid"); done
bytes "$(header "${roots[@]}" "$one_cid")$(section "$abc_cid" "$abc")" >blocks.car
run verify blocks.car
expect 3 "blocks.car incomplete sections=1 bytes=$(wc -c <blocks.car) unsound=0 skips=1
  link missing $(text "$one_cid")" ''

# A root that is named twice is walked from once, and what two roots link to is listed once.
begin 'verify: repeated roots, and roots that share what is below them'
other=82$(link "$one_cid")$(link "$one_cid")
other_cid=$(cbor "$other")
bytes "$(header "$one_cid" "$one_cid" "$other_cid" "$one_cid")$(section "$one_cid" "$one")$(section "$other_cid" "$other")" >blocks.car
run verify blocks.car
expect 3 "blocks.car incomplete sections=2 bytes=$(wc -c <blocks.car) unsound=0 skips=1
  link missing $abc_text" ''

# 70 roots, the last of which links to a block that is missing.
begin 'verify: more roots than a job may have'
roots=()
sections=
for number in $(seq 10 79); do
  roots+=("$(raw "$number")")
  sections+=$(section "$(raw "$number")" "$number")
done
bytes "$(header "${roots[@]}" "$one_cid")$sections$(section "$one_cid" "$one")" >blocks.car
run verify blocks.car
expect 3 "blocks.car incomplete sections=71 bytes=$(wc -c <blocks.car) unsound=0 skips=1
  link missing $abc_text" ''
run verify blocks.car --allow-missing raw
expect 0 "blocks.car sound sections=71 bytes=$(wc -c <blocks.car) absent=1" ''

# 15 sections that are damaged, and a list of 10 links to blocks that are missing. A damaged section has 38 bytes.
begin 'verify: the first 20 findings, and all'
sections= links= lines=()
place=$(($(bytes "$(header "$one_cid")" | wc -c)))
for number in $(seq 10 24); do
  sections+=$(section "$(raw "$number")" ff)
  lines+=("  section $place damaged $(text "$(raw "$number")")")
  place=$((place + 38))
done
for number in $(seq 50 59); do
  links+=$(link "$(raw "$number")")
  lines+=("  link missing $(text "$(raw "$number")")")
done
list=8a$links
list_cid=$(cbor "$list")
bytes "$(header "$list_cid")$sections$(section "$list_cid" "$list")" >blocks.car
summary="blocks.car broken sections=16 bytes=$(wc -c <blocks.car) unsound=15 skips=10"
run verify blocks.car
expect 3 "$(printf '%s\n' "$summary" "${lines[@]:0:20}" '  and 5 more (--all prints each)')" ''
run verify --all blocks.car
expect 3 "$(printf '%s\n' "${lines[@]}" "$summary")" ''
run verify --blocks-only blocks.car
expect 3 "$(printf '%s\n' "${summary/skips=10/skips=0}" "${lines[@]:0:15}")" ''

# The same file 100 times, of which the report is longer than a pipe holds.
begin 'verify: a pipe that closes early'
bytes "$(header "$list_cid")$sections$(section "$list_cid" "$list")" >blocks.car
paths=()
for _ in $(seq 100); do paths+=(blocks.car); done
{ run_bare verify "${paths[@]}" 2>"$scratch/stderr"; echo "$status" >ended; } | head -n 1 >"$scratch/stdout"
status=$(cat ended)
expect 3 "$summary" ''

# A chain of lists, each with two links to the one before: 21 of them have 2^22 - 1 ways down, and each is gone into once.
begin 'verify: many ways to one block'
cid=$abc_cid
sections=$(section "$abc_cid" "$abc")
for _ in $(seq 21); do
  block=82$(link "$cid")$(link "$cid")
  cid=$(cbor "$block")
  sections+=$(section "$cid" "$block")
done
bytes "$(header "$cid")$sections" >blocks.car
run verify blocks.car
expect 0 "blocks.car sound sections=22 bytes=$(wc -c <blocks.car)" ''

# A list of 2^20 links, which is put together in files.
begin 'verify and get: more links than a million'
bytes "$(link "$(raw_inline '')")" >links
for _ in $(seq 20); do
  cat links links >twice
  mv twice links
done
cat <(bytes "$(item_head 4 1048576)") links >block
cid=01711220$(sha256sum block | cut -c 1-64)
length=$(varint $((${#cid} / 2 + $(wc -c <block))))
cat <(bytes "$(header "$cid")" "$length" "$cid") block >blocks.car
run verify blocks.car
expect 0 "blocks.car sound sections=1 bytes=$(wc -c <blocks.car)" ''
run verify --blocks-only blocks.car
expect 0 "blocks.car sound sections=1 bytes=$(wc -c <blocks.car)" ''
# Without a limit get takes each link where it expands once, and 1,000,000 where it expands at every link.
run get --blocks blocks.car --root "$(text "$cid")" --out out/a.car
expect 0 '' "get done visits=1048577 kept=1048577 sections=1 bytes=$(wc -c <blocks.car)
total jobs=1 done=1 skips=0"
expect_same out/a.car blocks.car out/a.car
run get --blocks blocks.car --root "$(text "$cid")" --every-arrival --out out/b.car
expect 4 '' "left out/b.car.part: its job ended with limit
get limit visits=1000000 kept=1000000 sections=1 bytes=$(wc -c <blocks.car)
total jobs=1 done=0 skips=0"

begin 'verify: every archive of the examples, and what jobs writes'
run verify "$top"/examples/expected/*.car
expect_lines 'standard error' '' "$scratch/stderr"
expect_text 'files that are incomplete, with sound sections' 5 "$(grep -c ' incomplete .* unsound=0 ' "$scratch/stdout")"
run jobs --blocks "$top/examples/library.car" --jobs "$top/examples/library.jobs" --out out
run verify --blocks-only out/*.car
expect_text 'exit status' 0 "$status"

begin 'verify: what jobs writes of everything below its roots calls for nothing more'
write_blocks "$one_blocks"
write_jobs "one $(text "$one_cid") 100 $all" "two $abc_text,$(text "$one_cid") 100 $all"
for once in '' --once; do
  run jobs --blocks blocks.car --jobs jobs.txt --out out $once
  run verify out/one.car out/two.car
  expect 0 "out/one.car sound sections=2 bytes=178
out/two.car sound sections=2 bytes=219" ''
done

# The list of one link, whose block is missing or damaged.
begin 'verify --paths: each link with its path, and a section with that of the link to it'
bytes "$(header "$one_cid")$(section "$one_cid" "$one")" >lacks.car
bytes "$(header "$one_cid")$(section "$abc_cid" 616264)$one_blocks" >damaged.car
bytes "$one_archive" >whole.car
run verify --paths lacks.car damaged.car whole.car
expect 3 "lacks.car incomplete sections=1 bytes=138 unsound=0 skips=1
  link missing $abc_text $one_text/0
damaged.car broken sections=3 bytes=218 unsound=1 skips=1
  section 59 damaged $abc_text $one_text/0
  link damaged $abc_text $one_text/0
whole.car sound sections=2 bytes=178" ''
run verify --paths --json lacks.car
expect 3 "{\"file\":\"lacks.car\",\"outcome\":\"incomplete\",\"sections\":1,\"bytes\":138,\"unsound\":0,\"skips\":1,\"findings\":[{\"link\":\"missing\",\"cid\":\"$abc_text\",\"path\":\"$one_text/0\"}],\"more\":0}" ''
run verify --paths --blocks-only whole.car
expect_text 'exit status' 2 "$status"

begin 'verify --paths: a root that is named twice, and more than 64 of them'
bytes "$(header "$abc_cid" "$abc_cid")" >twice.car
run verify --paths twice.car
expect 3 "twice.car incomplete sections=0 bytes=$(wc -c <twice.car) unsound=0 skips=1
  link missing $abc_text $abc_text" ''
roots=()
for number in $(seq 10 74); do
  roots+=("01551220$(digest "$number")")
done
bytes "$(header "${roots[@]}")" >many.car
run verify --paths many.car
expect_text 'exit status' 3 "$status"
expect_lines 'standard error' 'note: links have no paths: they are followed from more than 64 roots' "$scratch/stderr"
expect_text 'first link' "  link missing $(text "${roots[0]}")" "$(sed -n 2p "$scratch/stdout")"

begin 'verify --jobs: the archives of a folder, also one that ended at its limit and one that is not there'
write_blocks "$one_blocks"
write_jobs '# jobs of one list' "one $(text "$one_cid") 100 $all" "low $(text "$one_cid") 1 $all" "two $abc_text,$(text "$one_cid") 100 $all"
run jobs --blocks blocks.car --jobs jobs.txt --out out
run verify --jobs jobs.txt out
expect 3 "out/one.car sound sections=2 bytes=178
out/low.car incomplete sections=1 bytes=138 unsound=0 skips=1
  link missing $abc_text
out/two.car sound sections=2 bytes=219" ''
cp out/one.car out/low.car
run verify --jobs jobs.txt out --exact
expect 0 "out/one.car sound sections=2 bytes=178
out/low.car sound sections=2 bytes=178
out/two.car sound sections=2 bytes=219" ''
cp out/two.car out/one.car
rm out/low.car
run verify --jobs jobs.txt out
expect 3 "out/one.car inexact sections=2 bytes=219 unsound=0 skips=0
  exact 0 header
out/low.car no-file
out/two.car sound sections=2 bytes=219" ''
run verify --jobs jobs.txt out --json --quiet
expect 3 '{"file":"out/one.car","outcome":"inexact","sections":2,"bytes":219,"unsound":0,"skips":0,"findings":[],"more":0,"exact":{"place":0,"reason":"header"}}
{"file":"out/low.car","outcome":"no-file"}' ''
run verify --jobs jobs.txt --part 3/3 out
expect 0 "out/two.car sound sections=2 bytes=219" ''
write_jobs "one $(text "$one_cid") 0 $all"
run verify --jobs jobs.txt out
refused 'jobs.txt: limit at line 1: 0, expected 1 to 4294967295; ix_export check-jobs reports each faulty line'
for more in '--path a' '--selector {".":{}}' '--blocks-only' "--jobs jobs.txt" another; do
  run verify --jobs jobs.txt out $more
  expect_text "exit status with $more" 2 "$status"
done
run verify --part 1/2 out/two.car
expect_text 'exit status' 2 "$status"

# Whatever bit of the file is turned and wherever it is cut, it isn't called sound, unless it is cut between sections.
begin 'verify: a small file with the lowest bit of a byte turned, or cut'
size=$((${#one_archive} / 2))
for ((place = 0; place < size; place++)); do
  byte=$((16#${one_archive:place * 2:2} ^ 1))
  bytes "${one_archive:0:place * 2}$(printf '%02x' "$byte")${one_archive:place * 2 + 2}" >"turned-$place.car"
  head -c "$place" <(bytes "$one_archive") >"cut-$place.car"
done
run verify turned-*.car cut-*.car
expect_text 'exit status' 2 "$status"
! grep -q ' sound ' "$scratch/stdout" || fail 'sound' /dev/null "$scratch/stdout"

begin 'verify: standard output is full'
bytes "$one_archive" >blocks.car
run_bare verify blocks.car >/dev/full 2>"$scratch/stderr"
refused 'cannot write -: No space left on device (os error 28)'
