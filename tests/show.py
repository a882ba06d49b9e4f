#!/usr/bin/env python3
"""Compares the DAG-JSON that `show` prints with a decoder of DAG-CBOR written here: of each block of the worked examples, and of
random blocks, some with a part that DAG-JSON can't express, whose path and reason are compared. Python's json reads what is
printed: integers exactly, floats by their bits, and keys in their order. Ends with status 1 at the first block that is wrong.
"""

import argparse
import base64
import json
import pathlib
import random
import struct
import subprocess
import sys
import tempfile

TESTS = pathlib.Path(__file__).resolve().parent
sys.path[:0] = [str(TESTS)]
sys.dont_write_bytecode = True
from hostile import DAG_CBOR, DIGESTS, NO_ROOTS, PROGRAM, RAW, TOP, cid, read_cid, read_varint, section, text

BASE58 = "123456789ABCDEFGHJKLMNPQRSTUVWXYZabcdefghijkmnopqrstuvwxyz"


class Wrong(Exception):
    pass


class Link:
    def __init__(self, cid):
        self.cid = cid


class Text:
    """A text string, whose bytes need not be UTF-8."""

    def __init__(self, data):
        self.data = data


class Lack(Exception):
    """A part that DAG-JSON can't express: its path, and the reason."""

    def __init__(self, path, reason):
        self.path, self.reason = path, reason


# DAG-CBOR. A map is a tuple of pairs of bytes and a node.


def head(major, number):
    if number < 24:
        return bytes([major << 5 | number])
    size = next(size for size in range(4) if number < 1 << (8 << size))
    return bytes([major << 5 | 24 + size]) + number.to_bytes(1 << size, "big")


def encoded(node):
    if node is None or isinstance(node, bool):
        return {None: b"\xf6", False: b"\xf4", True: b"\xf5"}[node]
    if isinstance(node, int):
        return head(0, node) if node >= 0 else head(1, -1 - node)
    if isinstance(node, float):
        return b"\xfb" + struct.pack(">d", node)
    if isinstance(node, bytes):
        return head(2, len(node)) + node
    if isinstance(node, Text):
        return head(3, len(node.data)) + node.data
    if isinstance(node, Link):
        return b"\xd8\x2a" + head(2, len(node.cid) + 1) + b"\0" + node.cid
    if isinstance(node, list):
        return head(4, len(node)) + b"".join(map(encoded, node))
    entries = sorted(node, key=lambda entry: (len(entry[0]), entry[0]))
    return head(5, len(entries)) + b"".join(encoded(Text(key)) + encoded(value) for key, value in entries)


def decoded(data):
    """The node at the front, and the bytes after it."""
    major, low, rest = data[0] >> 5, data[0] & 31, data[1:]
    if major == 7:
        if low == 27:
            return struct.unpack(">d", rest[:8])[0], rest[8:]
        return {20: False, 21: True, 22: None}[low], rest
    if low >= 24:
        size = 1 << (low - 24)
        low, rest = int.from_bytes(rest[:size], "big"), rest[size:]
    if major == 0:
        return low, rest
    if major == 1:
        return -1 - low, rest
    if major == 2:
        return rest[:low], rest[low:]
    if major == 3:
        return Text(rest[:low]), rest[low:]
    if major == 6:
        node, rest = decoded(rest)
        return Link(node[1:]), rest
    if major == 4:
        items = []
        for _ in range(low):
            node, rest = decoded(rest)
            items.append(node)
        return items, rest
    entries = []
    for _ in range(low):
        key, rest = decoded(rest)
        value, rest = decoded(rest)
        entries.append((key.data, value))
    return tuple(entries), rest


# DAG-JSON, as Python's json reads it with objects as tuples of pairs.


def base58(data):
    number, digits = int.from_bytes(data, "big"), ""
    while number:
        number, digit = divmod(number, 58)
        digits = BASE58[digit] + digits
    return digits


def escaped(key):
    return "".join(chr(byte) if 0x21 <= byte <= 0x7E and byte not in b"%/" else f"%{byte:02X}" for byte in key)


def json_of(node, path=""):
    if isinstance(node, float):
        return struct.pack(">d", node)
    if node is None or isinstance(node, (bool, int)):
        return node
    if isinstance(node, bytes):
        return (("/", (("bytes", base64.b64encode(node).decode().rstrip("=")),)),)
    if isinstance(node, Link):
        return (("/", base58(node.cid) if node.cid[:2] == b"\x12\x20" else text(node.cid)),)
    if isinstance(node, Text):
        try:
            return node.data.decode()
        except UnicodeDecodeError:
            raise Lack(path, "text that is not UTF-8")
    if isinstance(node, list):
        return [json_of(item, f"{path}/{at}") for at, item in enumerate(node)]
    entries = []
    for key, value in sorted(node, key=lambda entry: entry[0]):
        try:
            name = key.decode()
        except UnicodeDecodeError:
            raise Lack(path, f"a key that is not UTF-8: {escaped(key)}")
        if name == "/":
            raise Lack(path, "the key /, which DAG-JSON reserves for links and bytes")
        entries.append((name, json_of(value, f"{path}/{escaped(key)}")))
    return tuple(entries)


def read(printed):
    return json.loads(printed, object_pairs_hook=tuple, parse_float=lambda digits: struct.pack(">d", float(digits)))


def indented(printed):
    """The same text with a line for each element and entry."""
    out, depth, at = "", 0, 0
    while at < len(printed):
        mark = printed[at]
        if mark == '"':
            end = at + 1
            while printed[end] != '"':
                end += 2 if printed[end] == "\\" else 1
            out, at = out + printed[at : end + 1], end + 1
            continue
        if mark in "[{" and printed[at + 1] in "]}":
            out, at = out + printed[at : at + 2], at + 2
            continue
        if mark in "[{":
            depth += 1
            out += mark + "\n" + "  " * depth
        elif mark in "]}":
            depth -= 1
            out += "\n" + "  " * depth + mark
        elif mark == ",":
            out += ",\n" + "  " * depth
        else:
            out += mark + (" " if mark == ":" else "")
        at += 1
    return out


# Random blocks.


def random_text(random):
    pieces = ("a", "b", "/", "%", " ", "\x00", "\x1b", '"', "\\", "é", "€", "\u202e", "\U0001f600", "long " * 5)
    return "".join(random.choice(pieces) for _ in range(random.randrange(4))).encode()


def random_key(random, bad):
    kind = random.random()
    if kind < bad:
        return random.choice((b"/", b"\xff", b"a\xc3", b"\xed\xa0\x80"))
    name = random_text(random)
    return name if name != b"/" else b"//"


def random_node(random, depth, bad):
    kind = random.randrange(12 if depth else 9)
    if kind == 0:
        return random.choice((None, False, True))
    if kind == 1:
        return random.choice((0, 23, 24, 255, 2**53 + 1, 2**63, 2**64 - 1, random.getrandbits(64)))
    if kind == 2:
        return -1 - random.choice((0, 23, 2**53, 2**63 - 1, 2**63, 2**64 - 1, random.getrandbits(64)))
    if kind == 3:
        while True:
            number = struct.unpack(">d", random.getrandbits(64).to_bytes(8, "big"))[0]
            if number - number == 0:
                return random.choice((number, 0.0, -0.0, 1.0, 0.1, 1e16, 1e17, 1e-5, 1e-7, 5e-324, 1.5e300))
    if kind == 4:
        return bytes(random.randrange(256) for _ in range(random.randrange(6)))
    if kind in (5, 6):
        return Text(b"a\xff") if random.random() < bad else Text(random_text(random))
    if kind in (7, 8):
        digest = bytes(random.randrange(256) for _ in range(32))
        return Link(random.choice((b"\x12\x20", b"\x01\x55\x12\x20", b"\x01\x71\x12\x20")) + digest)
    if kind in (9, 10):
        return [random_node(random, depth - 1, bad) for _ in range(random.randrange(5))]
    keys = {random_key(random, bad) for _ in range(random.randrange(5))}
    return tuple((key, random_node(random, depth - 1, bad)) for key in sorted(keys))


# The comparison.


def show(program, file, name, *words):
    done = subprocess.run([program, "show", "--blocks", file, name, *words], capture_output=True, timeout=60)
    return done.returncode, done.stdout.decode(), done.stderr.decode()


def compare(program, file, key, block):
    """Compares what is printed of a block, compact and indented. Returns whether DAG-JSON can't express it."""
    name = text(key)
    node = block if key[1] == RAW else decoded(block)[0]
    came = show(program, file, name)
    try:
        wanted = json_of(node)
    except Lack as lack:
        if came != (3, "", f"{name}{lack.path}: DAG-JSON can't express {lack.reason}\n"):
            raise Wrong(f"{name}: {block.hex()}: {came}, and not {lack.path}: {lack.reason}")
        return True
    status, printed, errors = came
    if status != 0 or errors or not printed.endswith("\n") or "\n" in printed[:-1] or read(printed) != wanted:
        raise Wrong(f"{name}: {block.hex()}: {came}")
    if show(program, file, name, "--pretty") != (0, indented(printed), ""):
        raise Wrong(f"{name}: {block.hex()}: --pretty")
    return False


def blocks_of(file):
    """The CIDs and blocks of a CARv1 file, those that are sound and raw or DAG-CBOR."""
    data = file.read_bytes()
    length, at = read_varint(data, 0)
    at += length
    while at < len(data):
        length, begin = read_varint(data, at)
        at = begin + length
        hash_code, digest, middle = read_cid(data, begin)
        key, block = data[begin:middle], data[middle:at]
        if key[1] in (RAW, DAG_CBOR) and hash_code in DIGESTS and digest == DIGESTS[hash_code](block):
            yield key, block


def main():
    parser = argparse.ArgumentParser(description=__doc__)
    parser.add_argument("--program", default=PROGRAM)
    parser.add_argument("--seed", type=int, default=1)
    parser.add_argument("--blocks", type=int, default=400)
    words = parser.parse_args()
    examples = lacking = 0
    for file in sorted(TOP.glob("examples/**/*.car")):
        for key, block in blocks_of(file):
            compare(words.program, file, key, block)
            examples += 1
    chance = random.Random(words.seed)
    nodes = [random_node(chance, 4, chance.choice((0, 0, 0.2))) for _ in range(words.blocks)]
    blocks = {cid(DAG_CBOR, block): block for block in map(encoded, nodes)}
    with tempfile.TemporaryDirectory() as room:
        file = pathlib.Path(room) / "random.car"
        file.write_bytes(NO_ROOTS + b"".join(section(key, block) for key, block in blocks.items()))
        for key, block in blocks.items():
            lacking += compare(words.program, file, key, block)
    if not examples or not 0 < lacking < len(blocks):
        raise Wrong(f"{examples} examples, {lacking} of {len(blocks)} random blocks without DAG-JSON")
    print(f"{examples} blocks of the examples and {len(blocks)} random ones, {lacking} of these without DAG-JSON: passed")


if __name__ == "__main__":
    try:
        main()
    except Wrong as wrong:
        print(f"tests/show.py: FAILED: {wrong}", file=sys.stderr)
        sys.exit(1)
