# Bytes, CIDs, blocks and CAR files, all in hex.

# Writes bytes to standard output.
bytes() {
  printf '%b' "$(printf '%s' "$@" | sed 's/../\\x&/g')"
}

# repeated COUNT HEX
repeated() {
  printf "$2%.0s" $(seq "$1")
}

varint() {
  local rest=$1
  while ((rest >= 128)); do
    printf '%02x' $((rest % 128 + 128))
    rest=$((rest / 128))
  done
  printf '%02x' "$rest"
}

digest() {
  bytes "$1" | sha256sum | cut -c 1-64
}

digest_512() {
  bytes "$1" | sha512sum | cut -c 1-128
}

# The CID of a block, raw or DAG-CBOR: under SHA-256, under SHA-512, and the one that holds the block itself.
raw() {
  echo "01551220$(digest "$1")"
}

cbor() {
  echo "01711220$(digest "$1")"
}

raw_512() {
  echo "01551340$(digest_512 "$1")"
}

cbor_512() {
  echo "01711340$(digest_512 "$1")"
}

raw_inline() {
  echo "015500$(with_length "$1")"
}

cbor_inline() {
  echo "017100$(with_length "$1")"
}

# The text of a CID.
text() {
  echo "b$(bytes "$1" | base32 -w 0 | tr A-Z a-z | tr -d =)"
}

# item_head MAJOR NUMBER: the head of an item of DAG-CBOR, in its shortest form; the number is below 2^32.
item_head() {
  if (($2 < 24)); then
    printf '%02x' $(($1 << 5 | $2))
  elif (($2 < 1 << 8)); then
    printf '%02x%02x' $(($1 << 5 | 24)) "$2"
  elif (($2 < 1 << 16)); then
    printf '%02x%04x' $(($1 << 5 | 25)) "$2"
  else
    printf '%02x%08x' $(($1 << 5 | 26)) "$2"
  fi
}

# A link to a CID, in DAG-CBOR.
link() {
  printf 'd82a%s00%s' "$(item_head 2 $((${#1} / 2 + 1)))" "$1"
}

# with_length HEX..: bytes behind their length.
with_length() {
  local all
  all=$(printf '%s' "$@")
  printf '%s%s' "$(varint $((${#all} / 2)))" "$all"
}

# The header of an archive of a root, and the section of a CID and a block.
header() {
  local cid links=
  for cid in "$@"; do
    links+=$(link "$cid")
  done
  with_length a265726f6f7473 "$(item_head 4 $#)" "$links" 6776657273696f6e01
}

section() {
  with_length "$1" "$2"
}

# A header without roots, of 18 bytes.
no_roots=11a265726f6f7473806776657273696f6e01

# Two raw blocks, with the digests of the standard (FIPS 180-4).
abc=616263
abc_cid=01551220ba7816bf8f01cfea414140de5dae2223b00361a396177a9cb410ff61f20015ad
abc_text=bafkreif2pall7dybz7vecqka3zo24irdwabwdi4wc55jznaq75q7eaavvu
empty_cid=01551220e3b0c44298fc1c149afbf4c8996fb92427ae41e4649b934ca495991b7852b855
abc_512_cid=01551340ddaf35a193617abacc417349ae20413112e6fa4e89a97ea20a9eeee64b55d39a2192992a274fc1a836ba3c23a3feebbd454d4423643ce80e2a9ac94fa54ca49f
title='the CIDs of two known blocks'
expect_text 'text of a CID' "$abc_text" "$(text "$(raw "$abc")")"
expect_text 'CID of the empty block' "$empty_cid" "$(raw '')"
expect_text 'CID under SHA-512' "$abc_512_cid" "$(raw_512 "$abc")"
expect_text 'CID that holds its block' bafkqaa3bmjrq "$(text "$(raw_inline "$abc")")"

# A list of one link to `abc`, two lists of a link and a number, and a list of links to the first two.
one=81$(link "$abc_cid")
one_cid=$(cbor "$one")
with_zero=82$(link "$abc_cid")00
with_one=82$(link "$abc_cid")01
with_zero_cid=$(cbor "$with_zero")
fork=82$(link "$with_zero_cid")$(link "$one_cid")
fork_cid=$(cbor "$fork")

# Selectors: the root alone; everything below it; the same in its envelope.
matcher=a1612ea0
all=a16152a2616ca1646e6f6e65a0623a3ea16161a1613ea16140a0
envelope=a16873656c6563746f72$all

# The job over the list of one link: its line behind the name, its blocks, its archive, its line of the report.
one_job="$(text "$one_cid") 100 $all"
one_blocks=$(section "$one_cid" "$one")$(section "$abc_cid" "$abc")
one_archive=$(header "$one_cid")$one_blocks
one_line='done visits=2 kept=2 sections=2 bytes=178'

# Writes blocks.car: a header without roots, and sections.
write_blocks() {
  bytes "$no_roots" "$@" >blocks.car
}

# Writes jobs.txt: a line each.
write_jobs() {
  printf '%s\n' "$@" >jobs.txt
}
