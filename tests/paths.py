#!/usr/bin/env python3
"""Follows paths through random graphs beside a model: from a root along keys and indexes, through blocks that are sound, damaged
or missing, and through identity CIDs. `block` prints the block in which a path ends; the archive of `get --scope block` has the
blocks on the path, in their order, and `get` has these first; and where a path leads no further, the line says so and nothing is
written. `--seed` takes other graphs. Ends with status 1 at the first path that is wrong.
"""

import argparse
import pathlib
import random
import subprocess
import sys
import tempfile

TESTS = pathlib.Path(__file__).resolve().parent
sys.path[:0] = [str(TESTS)]
sys.dont_write_bytecode = True
from hostile import DAG_CBOR, IDENTITY, NO_ROOTS, PROGRAM, RAW, SHA2_256, SHA2_512, Wrong, cid, header, read_varint, section, text
from show import Link, Text, decoded, encoded

# Keys that look like indexes, or that have to be escaped.
KEYS = [b"", b"0", b"01", b"7", b"..", b"a", b"b/c", b"d,e", b"%2F", b"?", b"#", "\u00e9".encode(), b"\xff\x00", b"key"]
# How many paths of each graph are tried.
PATHS = 14


class Graph:
    """A graph of blocks: what is in the file under each CID, and which of them are damaged."""

    def __init__(self, chance):
        self.chance = chance
        self.blocks = {}
        self.damaged = set()
        made = [self.leaf() for _ in range(3)]
        for _ in range(chance.randrange(2, 7)):
            made.append(self.block(self.node(made, 2), made))
        self.root = self.block(self.node(made, 3, is_full=True), made, is_root=True)

    def leaf(self):
        return self.keep(RAW, self.chance.randbytes(self.chance.randrange(4)))

    def node(self, made, depth, is_full=False):
        """Random data with links to what was made."""
        kind = self.chance.randrange(2) if is_full else self.chance.randrange(6)
        if depth == 0 or kind > 3:
            return self.chance.choice([None, True, 5, -1, b"bytes", Text(b"text"), Link(self.chance.choice(made))])
        count = self.chance.randrange(1, 5)
        children = [self.node(made, depth - 1) for _ in range(count)]
        if kind % 2:
            return children
        return tuple(zip(self.chance.sample(KEYS, count), children))

    def block(self, node, made, is_root=False):
        return self.keep(DAG_CBOR, encoded(node), is_root)

    def keep(self, codec, block, is_root=False):
        """Keeps a block, or lets it be missing or damaged, or in its CID. The answer is its CID."""
        what = self.chance.random()
        if what < 0.15 and len(block) < 100:
            return cid(codec, block, IDENTITY)
        key = cid(codec, block, self.chance.choice([SHA2_256, SHA2_256, SHA2_512]))
        if is_root or what < 0.88:
            self.blocks[key] = block
        elif what < 0.94:
            self.blocks[key] = block + b"\0"
            self.damaged.add(key)
        return key

    def file(self):
        sections = [section(key, block) for key, block in self.blocks.items()]
        self.chance.shuffle(sections)
        return NO_ROOTS + b"".join(sections)

    def enter(self, key):
        """The node that a CID names, or why there is none."""
        _, at = read_varint(key, 0)
        codec, at = read_varint(key, at)
        hash_code, at = read_varint(key, at)
        _, at = read_varint(key, at)
        if hash_code == IDENTITY:
            block = key[at:]
        elif key in self.damaged:
            return None, f"damaged {text(key)}"
        elif key not in self.blocks:
            return None, f"missing {text(key)}"
        else:
            block = self.blocks[key]
        return (block if codec == RAW else decoded(block)[0]), None

    def cross(self, key):
        """From a CID across links: the CIDs on the way, the node at the end, or why there is none."""
        way = []
        while True:
            way.append(key)
            node, why = self.enter(key)
            if why or not isinstance(node, Link):
                return way, node, why
            key = node.cid


def children_of(node):
    """The segments and the children of a node."""
    if isinstance(node, list):
        return [(str(index).encode(), child) for index, child in enumerate(node)]
    return list(node) if isinstance(node, tuple) else []


def escaped(segment):
    """A segment as in a URL: everything but letters and digits is escaped."""
    return "".join(chr(byte) if chr(byte).isalnum() and byte < 128 else f"%{byte:02x}" for byte in segment)


def paths_of(graph):
    """Random paths: their segments, the CIDs on the way, and why they lead no further, if they don't."""
    for _ in range(PATHS):
        segments = []
        way, node, why = graph.cross(graph.root)
        while not why and graph.chance.random() < 0.85:
            children = children_of(node)
            if not children or graph.chance.random() < 0.1:
                segment = graph.chance.choice([b"01", b"no such", b"9", b""])
                if segment in dict(children):
                    continue
                kind = "key" if isinstance(node, tuple) else "index" if isinstance(node, list) else None
                segments.append(segment)
                why = f"no {kind} " if kind else "nothing at "
                break
            segment, child = graph.chance.choice(children)
            segments.append(segment)
            if isinstance(child, Link):
                more, node, why = graph.cross(child.cid)
                way = way + more
            else:
                node = child
        yield segments, way, why


def run(words, status):
    done = subprocess.run([PROGRAM, *words], capture_output=True)
    if done.returncode != status:
        raise Wrong(f"{words}: status {done.returncode} and not {status}: {done.stderr[:300]!r}")
    return done


def archive_of(graph, way):
    """The archive of the blocks on a way, each once."""
    keys = [key for key in dict.fromkeys(way) if key in graph.blocks]
    return header([graph.root]) + b"".join(section(key, graph.blocks[key]) for key in keys)


def judge(graph, file, segments, way, why):
    """Judges what the commands say of a path."""
    path = "/".join([text(graph.root), *map(escaped, segments)]) + "/" * (segments[-1:] == [b""])
    of_get = ["get", "--blocks", file, "--root", path, "--quiet"]
    if why:
        if segments:
            told = run(["block", "--blocks", file, path], 3)
            if told.stdout or not told.stderr.decode().startswith(why):
                raise Wrong(f"block {path}: {told.stderr!r}, and not {why}")
            told = run(of_get, 4)
            if told.stdout or not told.stderr.decode().startswith("--root: " + why):
                raise Wrong(f"get {path}: {told.stderr!r}, and not {why}")
        return
    if not segments:
        return
    _, at = read_varint(way[-1], 0)
    _, at = read_varint(way[-1], at)
    hash_code, at = read_varint(way[-1], at)
    block = way[-1][read_varint(way[-1], at)[1] :] if hash_code == IDENTITY else graph.blocks[way[-1]]
    if run(["block", "--blocks", file, path], 0).stdout != block:
        raise Wrong(f"block {path}: another block")
    wanted = archive_of(graph, way)
    if run([*of_get, "--scope", "block"], 0).stdout != wanted:
        raise Wrong(f"get {path} --scope block: another archive")
    everything = subprocess.run([PROGRAM, *of_get], capture_output=True)
    if everything.returncode not in (0, 3) or not everything.stdout.startswith(wanted):
        raise Wrong(f"get {path}: status {everything.returncode}, or another archive")


def main():
    parser = argparse.ArgumentParser(description=__doc__)
    parser.add_argument("--seed", type=int, default=1)
    parser.add_argument("--graphs", type=int, default=100)
    words = parser.parse_args()
    count = 0
    with tempfile.TemporaryDirectory(prefix="paths-") as room:
        file = f"{room}/graph.car"
        for number in range(words.graphs):
            graph = Graph(random.Random(f"{words.seed} {number}"))
            pathlib.Path(file).write_bytes(graph.file())
            try:
                for segments, way, why in paths_of(graph):
                    judge(graph, file, segments, way, why)
                    count += 1
            except Wrong as wrong:
                print(f"tests/paths.py: FAILED: graph {number} of seed {words.seed}: {wrong}", file=sys.stderr)
                return 1
    print(f"tests/paths.py: {count} paths in {words.graphs} graphs passed")
    return 0


if __name__ == "__main__":
    sys.exit(main())
