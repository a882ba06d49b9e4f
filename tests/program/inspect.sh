# The command `inspect`: what is in a file, the list of its sections, and what a file is that is not a CARv1.

# memory_for BYTES SECTIONS: the last line of a summary.
memory_for() {
  echo "memory $(($1 + 64 * $2 + 16 * 1024 * 1024))"
}

# Three sections: `abc`, the list of one link, and `abc` once more. The header has 59 bytes, and the sections are at
# 59, 99 and 178.
listed=$(header "$one_cid")$(section "$abc_cid" "$abc")$(section "$one_cid" "$one")$(section "$abc_cid" "$abc")

begin 'inspect: what is counted'
bytes "$listed" >blocks.car
run inspect blocks.car
expect 0 "$(printf '%s\n' 'version 1' 'roots 1' "root $(text "$one_cid")" "bytes $((${#listed} / 2))" 'sections 3' 'repeated 1' \
  'codec raw 2' 'codec dag-cbor 1' 'hash sha2-256 3' 'smallest 3' 'median 3' "greatest $((${#one} / 2))" \
  "$(memory_for $((${#listed} / 2)) 3)")" ''

begin 'inspect --list: a line for each section, from standard input'
run inspect --list - < <(bytes "$listed")
expect 0 "$(printf '%s\n' "59 3 $abc_text" "99 $((${#one} / 2)) $(text "$one_cid")" \
  "$((99 + 1 + (${#one_cid} + ${#one}) / 2)) 3 $abc_text")" ''

begin 'inspect: each place that is told is that of a section whose whole sections are kept so'
bytes "$listed" >blocks.car
"$program" inspect --list blocks.car | while read -r place _ _; do
  head -c "$place" blocks.car >front.car
  run inspect --list front.car
  expect_text 'exit status' 0 "$status"
done

begin 'inspect: no sections and no roots'
write_blocks
run inspect blocks.car
expect 0 "$(printf '%s\n' 'version 1' 'roots 0' 'bytes 18' 'sections 0' 'repeated 0' "$(memory_for 18 0)")" ''
run inspect --list blocks.car
expect 0 '' ''

# A CIDv0 is printed as the program prints it, and codes without a name as numbers.
begin 'inspect: a CIDv0, dag-pb, and codes that are not named'
cid_0=1220$(digest "$abc")
cid_other=0181029a0101ff
write_blocks "$(section "$cid_0" "$abc")" "$(section "$cid_other" '')"
run inspect blocks.car
expect 0 "$(printf '%s\n' 'version 1' 'roots 0' "bytes $(wc -c <blocks.car)" 'sections 2' 'repeated 0' \
  'codec dag-pb 1' 'codec 0x101 1' 'hash sha2-256 1' 'hash 0x9a 1' 'smallest 0' 'median 0' 'greatest 3' \
  "$(memory_for "$(wc -c <blocks.car)" 2)")" ''
run inspect --list blocks.car
expect 0 "18 3 v0-$cid_0
$((18 + 1 + 34 + 3)) 0 $(text "$cid_other")" ''

# A section for each code that has a name, by the multicodec table, in the order of the codes.
begin 'inspect: the names of codes'
codecs=(cbor=0x51 raw=0x55 dag-pb=0x70 dag-cbor=0x71 libp2p-key=0x72 git-raw=0x78 dag-jose=0x85 eth-block=0x90 bitcoin-block=0xb0
  dag-json=0x0129 json=0x0200)
hashes=(sha1=0x11 sha2-256=0x12 sha2-512=0x13 sha3-512=0x14 sha3-384=0x15 sha3-256=0x16 sha3-224=0x17 keccak-256=0x1b blake3=0x1e
  sha2-384=0x20 dbl-sha2-256=0x56 md5=0xd5 blake2b-256=0xb220 blake2b-512=0xb240 blake2s-256=0xb260)
sections=
wanted=()
for codec in "${codecs[@]}"; do
  sections+=$(section "01$(varint $((${codec#*=})))0000" '')
  wanted+=("codec ${codec%=*} $([ "${codec%=*}" = raw ] && echo $((1 + ${#hashes[@]})) || echo 1)")
done
wanted+=("hash identity ${#codecs[@]}")
for hash in "${hashes[@]}"; do
  sections+=$(section "0155$(varint $((${hash#*=})))00" '')
  wanted+=("hash ${hash%=*} 1")
done
write_blocks "$sections"
run inspect blocks.car
expect 0 "$(printf '%s\n' 'version 1' 'roots 0' "bytes $(wc -c <blocks.car)" 'sections 26' 'repeated 0' "${wanted[@]}" \
  'smallest 0' 'median 0' 'greatest 0' "$(memory_for "$(wc -c <blocks.car)" 26)")" ''

# is_told HEX LINE: what a file is.
is_told() {
  begin "inspect: $2"
  bytes "$1" >file
  run inspect file
  refused "file: $2"
}
is_told 0aa16776657273696f6e02 'truncated at 11: the payload that the header of a CARv2 file names is not whole in it'
is_told 1f8b0800 'truncated at 0: compressed by gzip'
is_told 28b52ffd 'truncated at 0: compressed by zstd'
is_told 425a6839 'truncated at 0: compressed by bzip2'
is_told "$(repeated 257 61)7573746172" 'header at 0: a tar archive'
is_told 207b7d 'truncated at 0: JSON'
is_told 6162630a 'truncated at 0: plain text'
is_told '' 'truncated at 0: an empty file'
is_told 00ff 'header at 0: not a CARv1 file'

begin 'inspect: a file that ends early, with the place where its whole sections end'
bytes "${listed%??}" >blocks.car
place=$((99 + 1 + (${#one_cid} + ${#one}) / 2))
run inspect blocks.car
refused "blocks.car: truncated at $place: its whole sections are its first $place bytes (head -c $place)"
head -c "$place" blocks.car >front.car
run inspect front.car
expect_text 'exit status' 0 "$status"

begin 'inspect: a section without a CID'
write_blocks "$one_blocks" 00
place=$((18 + ${#one_blocks} / 2))
run inspect blocks.car
refused "blocks.car: cid at $place: the sections before are its first $place bytes (head -c $place)"

begin 'inspect: a file that is not there'
run inspect none
refused 'cannot read none: No such file or directory (os error 2)'

begin 'inspect: standard output is full'
bytes "$listed" >blocks.car
run_bare inspect blocks.car >/dev/full 2>"$scratch/stderr"
refused 'cannot write -: No space left on device (os error 28)'

begin 'inspect --list: a pipe that closes early'
for _ in $(seq 1500); do printf '%s' "$one_blocks"; done >sections
write_blocks "$(cat sections)"
{ run_bare inspect --list blocks.car 2>"$scratch/stderr"; echo "$status" >ended; } | head -n 1 >"$scratch/stdout"
status=$(cat ended)
expect 0 "18 $((${#one} / 2)) $(text "$one_cid")" ''
