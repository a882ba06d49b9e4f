# So many blocks that several threads index them.

# many_files COUNT [PLACE:LIKE..]: so many raw blocks, each under a CID of its own, and after them a list that links to some of
# them, to each PLACE once more and to one that isn't there. At a PLACE is the CID of the block LIKE instead, over other
# bytes. The expected result of the job over the list is in wanted.car and wanted.txt.
many_files() {
  python3 - "$@" <<'PYTHON'
import base64, hashlib, sys

def varint(number):
    spelled = b""
    while number >= 128:
        spelled, number = spelled + bytes([number % 128 + 128]), number // 128
    return spelled + bytes([number])

def head(major, number):
    return bytes([major << 5 | 25]) + number.to_bytes(2, "big") if number > 255 else (
        bytes([major << 5 | 24, number]) if number > 23 else bytes([major << 5 | number]))

def cid(codec, block):
    return bytes([1, codec, 0x12, 32]) + hashlib.sha256(block).digest()

def section(key, block):
    return varint(len(key + block)) + key + block

def link(key):
    return b"\xd8\x2a\x58\x25\x00" + key

def text(key):
    return "b" + base64.b32encode(key).decode().lower().rstrip("=")

def header(roots):
    body = b"\xa2\x65roots" + head(4, len(roots)) + b"".join(map(link, roots)) + b"\x67version\x01"
    return varint(len(body)) + body

count = int(sys.argv[1])
repeated = dict(tuple(map(int, word.split(":"))) for word in sys.argv[2:])
blocks = [b"%07d" % place for place in range(count)]
pairs = [(cid(0x55, block), block) for block in blocks]
for place, like in repeated.items():
    pairs[place] = (pairs[like][0], b"another")
absent = cid(0x55, b"absent")
linked = [pairs[place][0] for place in range(0, count, count // 99)] + [pairs[place][0] for place in repeated] + [absent, pairs[-1][0]]
tree = head(4, len(linked)) + b"".join(map(link, linked))
root = cid(0x71, tree)
first = {}
for key, block in pairs + [(root, tree)]:
    first.setdefault(key, block)

with open("blocks.car", "wb") as file:
    file.write(header([]) + b"".join(section(*pair) for pair in pairs) + section(root, tree))
archive, written, skips = header([root]) + section(root, tree), {root}, ""
for seq, key in enumerate(linked, 1):
    if key not in first:
        skips += f"  {seq} missing {text(key)}\n"
    elif cid(0x55, first[key]) != key:
        skips += f"  {seq} damaged {text(key)}\n"
    elif key not in written:
        written.add(key)
        archive += section(key, first[key])
visits = len(linked) + 1
with open("wanted.car", "wb") as file:
    file.write(archive)
with open("wanted.txt", "w") as file:
    file.write(f"many done visits={visits} kept={visits} sections={len(written)} bytes={len(archive)}\n{skips}"
               f"total jobs=1 done=1 skips={skips.count(chr(10))}")
with open("jobs.txt", "w") as file:
    file.write(f"many {text(root)} 1000 a16152a2616ca1646e6f6e65a0623a3ea16161a1613ea16140a0\n")
PYTHON
}

# many_expected: with one of each and with four, the archive and the report are the wanted ones.
many_expected() {
  local threads
  for threads in 1 4; do
    rm -f out/*
    run jobs --blocks blocks.car --jobs jobs.txt --out out --walkers "$threads" --verifiers "$threads"
    expect 3 "$(cat wanted.txt)" ''
    expect_same out/many.car wanted.car out/many.car
  done
}

begin '450,000 blocks under CIDs of their own'
many_files 450000
many_expected

begin 'of sections with one CID the first counts, wherever they stand among 450,000 blocks'
many_files 450000 3:99990 99989:7 110000:100001 399999:12 420000:440000 449999:0
many_expected
