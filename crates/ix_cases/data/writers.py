#!/usr/bin/env python3
"""Prints writers.cases: one job over a list of one link, with a writer that takes so many bytes
and then fails, for each number of bytes up to the whole archive. What is wanted is made from the formats alone.
"""

import base64
import hashlib

ALL = "a16152a2616ca1646e6f6e65a0623a3ea16161a1613ea16140a0"


def cid(codec, block):
    return bytes([1, codec, 0x12, 0x20]) + hashlib.sha256(block).digest()


def with_length(data):
    """The bytes after their length, which is below 128."""
    return bytes([len(data)]) + data


abc = b"abc"
link_to = bytes.fromhex("d82a582500")
one = b"\x81" + link_to + cid(0x55, abc)
root = cid(0x71, one)
text = "b" + base64.b32encode(root).decode().lower().rstrip("=")
header = with_length(
    bytes.fromhex("a265726f6f747381") + link_to + root + bytes.fromhex("6776657273696f6e01")
)
sections = [with_length(root + one), with_length(cid(0x55, abc) + abc)]
archive = header + b"".join(sections)

print("# One job over a list of one link, with a writer that takes so many bytes and then fails: made by writers.py.")
for room in range(len(archive) + 1):
    print(f"\nexample writer of {room} bytes")
    for part in sections:
        print(f"section {part.hex()}")
    print(f"job a {text} 100 {ALL}")
    print(f"room {room}")
    if room < len(header):
        print("run = cannot write job 0")
        continue
    whole = sum(room >= len(header) + sum(map(len, sections[: count + 1])) for count in range(len(sections)))
    end = "done" if room == len(archive) else "write"
    print(f"report a {end} visits={whole} kept={whole} sections={whole} bytes={room}")
    print(f"report total jobs=1 done={int(end == 'done')} skips=0")
    print(f"status {0 if end == 'done' else 4}")
    print(f"archive {archive[:room].hex()}")
    print("run = as written")
