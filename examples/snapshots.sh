#!/usr/bin/env bash
# Ten snapshots of a small library, kept as ten differences. Each day a photo is added, and a snapshot is a list of the last
# six. The archive of a day leaves out what the archives of the days before have. In the end the fifth snapshot is restored from
# the first five differences, and compared with its whole archive. It needs bash, sed, cmp and the coreutils.
#
#   examples/snapshots.sh [FOLDER]     where the files are kept; it must not exist [default: snapshots]
set -euo pipefail
export LC_ALL=C
program=${IX_EXPORT:-$(dirname "$(readlink -f "${BASH_SOURCE[0]}")")/../ix_export}
program=$(readlink -f "$program")
folder=${1:-snapshots}
mkdir "$folder"
cd "$folder"

# Writes the bytes of a hex text.
bytes() {
  printf '%b' "$(sed 's/../\\x&/g' <<<"$1")"
}

# Prints a number below 16384 as a varint in hex.
varint() {
  if (($1 < 128)); then printf '%02x' "$1"; else printf '%02x%02x' $(($1 % 128 + 128)) $(($1 / 128)); fi
}

# Prints the digest of a file.
digest_of() {
  sha256sum <"$1" | head -c 64
}

# add CODEC FILE: adds a section with the block in a file to the library, under a CIDv1 of this codec, and sets `cid` to that.
add() {
  cid=01${1}1220$(digest_of "$2")
  bytes "$(varint $((36 + $(stat -c %s "$2"))))$cid" >>library.car
  cat "$2" >>library.car
}

# A CARv1 file without roots.
bytes 11a265726f6f7473806776657273696f6e01 >library.car
photos=() before=() parts=0 wholes=0
for day in {1..10}; do
  seq -f "photo $day, line %g" 200 >block
  add 55 block
  photos+=("$cid")

  # In DAG-CBOR, a list of the day and of links.
  shown=("${photos[@]: -$((day < 6 ? day : 6))}")
  snapshot=$(printf '%02x%02x' $((0x81 + ${#shown[@]})) "$day")
  for photo in "${shown[@]}"; do
    snapshot+=d82a582500$photo
  done
  bytes "$snapshot" >block
  add 71 block
  root=b$(bytes "$cid" | base32 -w 0 | tr A-Z a-z | tr -d =)

  "$program" get --blocks library.car --root "$root" --out whole.car --quiet
  "$program" get --blocks library.car --root "$root" "${before[@]}" --out "day-$day.car" --quiet
  before+=(--without "day-$day.car")
  part=$(stat -c %s "day-$day.car") whole=$(stat -c %s whole.car)
  parts=$((parts + part)) wholes=$((wholes + whole))
  echo "day $day: $part bytes, and $whole if it were whole"
  if [ "$day" = 5 ]; then
    fifth=$root
    mv whole.car whole-5.car
  fi
done
rm block whole.car
echo "ten days: $parts bytes, and $wholes if each were whole"

"$program" get --blocks day-5.car --blocks day-4.car --blocks day-3.car --blocks day-2.car --blocks day-1.car \
  --root "$fifth" --out restored-5.car --quiet
cmp whole-5.car restored-5.car
echo "day 5 is restored from five differences"
