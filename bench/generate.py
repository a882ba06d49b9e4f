#!/usr/bin/env python3
"""Writes the files of a workload, blocks.car and jobs.txt, into a folder.

The blocks are written one by one, children before parents, so that little memory is needed. The same
workload, size and seed give the same bytes.
"""

import argparse
import base64
import hashlib
import pathlib
import random

MOST_VISITS = 1_000_000
MOST_BYTES = 1 << 30
RAW, DAG_CBOR = 0x55, 0x71
IDENTITY, SHA2_256, SHA2_512 = 0x00, 0x12, 0x13


# DAG-CBOR, of what the workloads need.


def head(major, number):
    """The head of an item, in its shortest form."""
    if number < 24:
        return bytes([major << 5 | number])
    for information, size in ((24, 1), (25, 2), (26, 4), (27, 8)):
        if number < 1 << 8 * size:
            return bytes([major << 5 | information]) + number.to_bytes(size, "big")
    raise ValueError(f"{number} has no head")


def integer(number):
    return head(0, number)


def text(word):
    return head(3, len(word)) + word.encode()


def list_of(members):
    return head(4, len(members)) + b"".join(members)


def map_of(entries):
    """A map, its keys the shorter first and those of one length by their bytes."""
    rising = sorted(entries, key=lambda key: (len(key), key))
    return head(5, len(rising)) + b"".join(text(key) + entries[key] for key in rising)


def link(cid):
    return b"\xd8\x2a" + head(2, len(cid) + 1) + b"\x00" + cid


# Selectors.


def fields(**selectors):
    return map_of({"f": map_of({"f>": map_of(selectors)})})


def everywhere(selector):
    return map_of({"a": map_of({">": selector})})


def union(*selectors):
    return map_of({"|": list_of(selectors)})


def recursion(sequence, depth=None):
    limit = {"none": map_of({})} if depth is None else {"depth": integer(depth)}
    return map_of({"R": map_of({"l": map_of(limit), ":>": sequence})})


MATCHER = map_of({".": map_of({})})
EDGE = map_of({"@": map_of({})})
ALL = recursion(everywhere(EDGE))


# Files.


def varint(number):
    spelled = bytearray()
    while number >= 128:
        spelled.append(number % 128 + 128)
        number //= 128
    spelled.append(number)
    return bytes(spelled)


class Car:
    """A CARv1 file without roots, as it is written."""

    def __init__(self, file):
        header = map_of({"roots": list_of([]), "version": integer(1)})
        self.file = file
        self.size = file.write(varint(len(header)) + header)

    def add(self, codec, block):
        """Writes the section of a block, and answers the block's CID."""
        return self.add_under(codec, SHA2_256, hashlib.sha256(block).digest(), block)

    def add_512(self, codec, block):
        """The same under SHA-512."""
        return self.add_under(codec, SHA2_512, hashlib.sha512(block).digest(), block)

    def add_under(self, codec, hash_code, digest, block):
        """Writes the section of a block under a digest that needn't be its own, and answers the CID."""
        cid = bytes([1, codec, hash_code, len(digest)]) + digest
        self.size += self.file.write(varint(len(cid) + len(block)) + cid)
        self.size += self.file.write(block)
        if self.size > MOST_BYTES:
            raise SystemExit(f"the blocks are more than {MOST_BYTES} bytes: take a smaller size")
        return cid


def job(name, root, selector, limit=MOST_VISITS):
    cid = "b" + base64.b32encode(root).decode().lower().rstrip("=")
    return f"{name} {cid} {limit} {selector.hex()}\n"


# Workloads: each writes its blocks and answers its jobs.


def lists_of_leaves(add, size, chance):
    """The CID of a list of lists of at most 500 raw leaves of 256 KiB, all written by `add`."""
    lists = []
    for first in range(0, size, 500):
        members = range(first, min(first + 500, size))
        links = [link(add(RAW, chance.randbytes(1 << 18))) for _ in members]
        lists.append(link(add(DAG_CBOR, list_of(links))))
    return add(DAG_CBOR, list_of(lists))


def leaves(car, size, chance):
    """Raw leaves of 256 KiB under lists of at most 500: one job over all."""
    return [job("leaves", lists_of_leaves(car.add, size, chance), ALL)]


def sha512(car, size, chance):
    """The leaves and lists of `leaves`, all under SHA-512: one job over all."""
    return [job("sha512", lists_of_leaves(car.add_512, size, chance), ALL)]


def tree(car, size, node):
    """The CIDs of a tree whose place p has the children 4p + 1 to 4p + 4, each made by `node` of
    the links to its children and its place."""
    cids = [b""] * size
    for place in reversed(range(size)):
        links = [link(cid) for cid in cids[4 * place + 1 : 4 * place + 5]]
        cids[place] = car.add(DAG_CBOR, node(links, place))
    return cids


def small_tree(car, size, chance):
    """Small maps and lists with few links."""

    def node(links, place):
        number = integer(chance.getrandbits(40))
        if chance.random() < 0.5:
            return list_of([integer(place), number, *links])
        named = dict(zip(("left", "right", "up", "down"), links))
        return map_of({"place": integer(place), "number": number, **named})

    return tree(car, size, node)


def small(car, size, chance):
    """Small maps and lists with few links: one job over all."""
    return [job("small", small_tree(car, size, chance)[0], ALL)]


def parts(car, size, chance):
    """The blocks of `small`, and sixteen jobs, one over each of the subtrees on its third level: each block but
    the first five is in one job."""
    if size < 21:
        raise SystemExit("the size of the workload parts is 21 or more")
    cids = small_tree(car, size, chance)
    return [job(f"part-{number}", cids[5 + number], ALL) for number in range(16)]


def deep(car, size, chance):
    """A chain of lists, each linking to the next: one job over all."""
    cid = car.add(DAG_CBOR, list_of([integer(chance.getrandbits(40))]))
    for _ in range(size - 1):
        cid = car.add(DAG_CBOR, list_of([link(cid)]))
    return [job("deep", cid, ALL)]


def inline(car, size, chance):
    """The chain of `deep` in one block: each list stands in an identity CID, to which the one round it links."""
    innermost = list_of([integer(chance.getrandbits(40))])
    fronts, length = [], len(innermost)
    for _ in range(size - 1):
        fronts.append(bytes([1, DAG_CBOR, IDENTITY]) + varint(length))
        length += len(fronts[-1])
        fronts.append(head(4, 1) + b"\xd8\x2a" + head(2, length + 1) + b"\x00")
        length += len(fronts[-1])
    block = b"".join(reversed(fronts)) + innermost
    return [job("inline", car.add(DAG_CBOR, block), ALL)]


def shared(car, size, chance):
    """A tree of lists and a thousand jobs, each over one of the subtrees on its second and third level:
    each block but the first is in 125 jobs or more."""
    if size < 21:
        raise SystemExit("the size of the workload shared is 21 or more")
    salt = integer(chance.getrandbits(40))
    cids = tree(car, size, lambda links, place: list_of([salt, integer(place), *links]))
    # Half of the jobs are over the four subtrees of the second level, half over the sixteen of the third.
    roots = [1 + number % 4 for number in range(500)] + [5 + number % 16 for number in range(500)]
    return [job(f"shared-{number}", cids[root], ALL) for number, root in enumerate(roots)]


def ways(car, size, chance):
    """Layers of fifty lists, each linking to all of the next layer: one job that is to go in once, with some fifty times as
    many arrivals as there are blocks."""
    salt = integer(chance.getrandbits(40))
    layer = []
    for _ in range(max(1, size // 50)):
        below = [link(cid) for cid in layer]
        layer = [car.add(DAG_CBOR, list_of([salt, integer(place), *below])) for place in range(50)]
    root = car.add(DAG_CBOR, list_of([link(cid) for cid in layer]))
    return [job("ways", root, ALL)]


def nested(car, size, chance):
    """A chain of maps, each with a body of 21 blocks, and selectors of recursions inside recursions,
    unions and fields."""
    chain = None
    for _ in range(max(1, size // 22)):
        entries = {"body": link(body(car, chance, 2)), "tags": list_of([integer(chance.getrandbits(40))])}
        if chain is not None:
            entries["next"] = link(chain)
        chain = car.add(DAG_CBOR, map_of(entries))
    return [
        job("whole", chain, along(recursion(union(everywhere(EDGE), fields(x=recursion(everywhere(EDGE), 2)))))),
        job("shallow", chain, along(recursion(everywhere(EDGE), 3))),
        job("fields", chain, along(fields(x=MATCHER))),
    ]


def along(selector):
    """The chain of maps, and of each body what the selector enters."""
    return recursion(union(fields(next=EDGE), fields(body=selector)))


def body(car, chance, levels):
    """A map with a link and a list of three links, over two levels, and raw blocks below."""
    if levels == 0:
        return car.add(RAW, chance.randbytes(40))
    links = [link(body(car, chance, levels - 1)) for _ in range(4)]
    return car.add(DAG_CBOR, map_of({"x": links[0], "list": list_of(links[1:])}))


def hostile(car, size, chance):
    """Selectors whose ways to one place are many, and wide ones: a union of two that doubles the ways at each step,
    and five recursions inside one another, along a chain of lists; a union of as many members as the size over a
    short chain; as many fields as the size over a map of as many keys."""
    leaf = car.add(RAW, chance.randbytes(40))
    chain = car.add(DAG_CBOR, list_of([link(leaf)]))
    for number in range(size):
        chain = car.add(DAG_CBOR, list_of([link(chain)]))
        if number < 21:
            short = chain
    names = [f"name-{number}" for number in range(size)]
    wide_map = car.add(DAG_CBOR, map_of(dict.fromkeys(names, link(leaf))))
    inside = recursion(everywhere(EDGE))
    for _ in range(4):
        inside = recursion(union(everywhere(EDGE), inside))
    return [
        job("doubling", chain, recursion(union(everywhere(EDGE), everywhere(EDGE)))),
        job("inside", chain, inside),
        job("union", short, recursion(union(*[everywhere(EDGE)] * size))),
        job("fields", wide_map, fields(**dict.fromkeys(names, MATCHER))),
    ]


def under_digests(car, size, digest):
    """Small raw blocks under these digests, and a job over one more block: nearly all is loading."""
    for place in range(size - 1):
        car.add_under(RAW, SHA2_256, digest(), place.to_bytes(8, "big"))
    return [job("last", car.add(RAW, b"last"), MATCHER)]


def random_cids(car, size, chance):
    """Random digests, as honest ones are."""
    return under_digests(car, size, lambda: chance.randbytes(32))


def prefix_cids(car, size, chance):
    """Digests that begin and end alike: the program looks CIDs up by their last eight bytes, and what these
    don't tell apart by all bytes in turn."""
    front, back = chance.randbytes(16), chance.randbytes(8)
    return under_digests(car, size, lambda: front + chance.randbytes(8) + back)


def bucket_cids(car, size, chance):
    """Digests whose last eight bytes differ and come to one slot of the program's table, since the lower half
    of the number that they spell is one."""
    middle = chance.randbytes(4)
    return under_digests(car, size, lambda: chance.randbytes(24) + middle + chance.randbytes(4))


MAKERS = (leaves, sha512, small, parts, deep, inline, shared, ways, nested, hostile, random_cids, prefix_cids, bucket_cids)
WORKLOADS = {make.__name__.replace("_", "-"): make for make in MAKERS}


def main():
    parser = argparse.ArgumentParser(description=__doc__)
    parser.add_argument("workload", choices=WORKLOADS)
    parser.add_argument("size", type=int, help="the number of leaves, of blocks, or of lists")
    parser.add_argument("folder", type=pathlib.Path, help="where the two files go; it is made where it isn't there")
    parser.add_argument("--seed", type=int, default=1)
    words = parser.parse_args()
    if not 1 <= words.size < MOST_VISITS:
        parser.error(f"the size is 1 to {MOST_VISITS - 1}")
    words.folder.mkdir(parents=True, exist_ok=True)
    with open(words.folder / "blocks.car", "wb") as file:
        jobs = WORKLOADS[words.workload](Car(file), words.size, random.Random(words.seed))
    (words.folder / "jobs.txt").write_text("".join(jobs))


if __name__ == "__main__":
    main()
