#!/usr/bin/env python3
"""Measures the program on a store of many large files, and on one library of millions of leaves.

What it makes and prints stands in bench/README.md.
"""

import argparse
import concurrent.futures
import hashlib
import os
import pathlib
import subprocess
import sys
import tempfile
import time

TOP = pathlib.Path(__file__).resolve().parent.parent
GIB = 1 << 30
# How many links a list of leaves has.
WIDTH = 1_000
RAW, DAG_CBOR = 0x55, 0x71
HEADER = b"\x11\xa2\x65roots\x80\x67version\x01"
ROW = "| {:>5} | {:>6} | {:>10} | {:>9} | {:>7} | {:>7} | {:>7} | {:>11} | {:>11} |"
HEAD = ("files", "GiB", "blocks", "sha256sum", "loading", "get", "peak", "bytes/block", "times linear")


def varint(number):
    """A varint (unsigned LEB128)."""
    out = bytearray()
    while number >= 0x80:
        out.append(number & 0x7F | 0x80)
        number >>= 7
    return bytes(out) + bytes([number])


def cid_of(codec, block):
    """A CIDv1 with a SHA-256 digest."""
    return bytes([1, codec, 0x12, 0x20]) + hashlib.sha256(block).digest()


def section(cid, block):
    """A section of a CARv1 file."""
    return varint(len(cid) + len(block)) + cid + block


def front(major, number):
    """The front of a DAG-CBOR item."""
    for extra, size in ((24, 1), (25, 2), (26, 4)):
        if number < 24:
            return bytes([major << 5 | number])
        if number < 1 << 8 * size:
            return bytes([major << 5 | extra]) + number.to_bytes(size, "big")
    return bytes([major << 5 | 27]) + number.to_bytes(8, "big")


def list_of(cids):
    """A DAG-CBOR list of links."""
    return front(4, len(cids)) + b"".join(b"\xd8\x2a" + front(2, len(cid) + 1) + b"\0" + cid for cid in cids)


def text_of(cid):
    """A CID in base32."""
    digits = "abcdefghijklmnopqrstuvwxyz234567"
    bits = "".join(f"{byte:08b}" for byte in cid)
    bits += "0" * (-len(bits) % 5)
    return "b" + "".join(digits[int(bits[at : at + 5], 2)] for at in range(0, len(bits), 5))


def write_file(path, number, leaves, size):
    """Writes a file of so many raw leaves of `size` bytes under lists of a thousand. The answer is the CID of the
    list of these lists, and how many blocks there are."""
    filler = hashlib.shake_256(number.to_bytes(8, "big")).digest(size)
    lists, members, count = [], [], 0
    with open(path, "wb", buffering=1 << 22) as file:
        file.write(HEADER)
        for leaf in range(leaves):
            block = (number << 40 | leaf).to_bytes(8, "big") + filler[8:]
            cid = cid_of(RAW, block)
            file.write(section(cid, block))
            members.append(cid)
            if len(members) == WIDTH or leaf + 1 == leaves:
                block = list_of(members)
                cid = cid_of(DAG_CBOR, block)
                file.write(section(cid, block))
                lists.append(cid)
                members = []
        block = list_of(lists)
        top = cid_of(DAG_CBOR, block)
        file.write(section(top, block))
    return top, leaves + len(lists) + 1


def write_files(room, files, leaves, size):
    """Writes the files, and adds to each a root over all files up to it. The answer is these roots in base32, and
    how many blocks the files up to each have."""
    paths = [room / f"{number}.car" for number in range(files)]
    with concurrent.futures.ProcessPoolExecutor(max_workers=min(files, os.cpu_count())) as pool:
        made = list(pool.map(write_file, paths, range(files), [leaves] * files, [size] * files))
    roots, counts, total = [], [], 0
    for number, path in enumerate(paths):
        block = list_of([top for top, _ in made[: number + 1]])
        root = cid_of(DAG_CBOR, block)
        with open(path, "ab") as file:
            file.write(section(root, block))
        total += made[number][1] + 1
        roots.append(text_of(root))
        counts.append(total)
    return paths, roots, counts


def run_once(words):
    """The seconds and the peak memory in bytes of one run, whose standard output is let go."""
    begin = time.monotonic()
    child = subprocess.Popen(words, stdout=subprocess.DEVNULL)
    _, status, used = os.wait4(child.pid, 0)
    if os.waitstatus_to_exitcode(status) != 0:
        raise SystemExit(f"status {os.waitstatus_to_exitcode(status)} of {' '.join(map(str, words[:3]))} ..")
    return time.monotonic() - begin, used.ru_maxrss * 1024


def best(words, runs):
    """The least seconds and the greatest peak of so many runs."""
    measured = [run_once(words) for _ in range(runs)]
    return min(seconds for seconds, _ in measured), max(peak for _, peak in measured)


def measure_files(program, room, runs, paths, roots, counts):
    """Prints a row for 1, 2, 4 .. files: what loading takes, and an archive of everything below a root over them."""
    none = room / "none.txt"
    none.write_text("")
    print(ROW.format(*HEAD))
    print("|---" * len(HEAD) + "|")
    first = None
    number = 1
    while number <= len(paths):
        chosen = paths[:number]
        size = sum(path.stat().st_size for path in chosen)
        blocks = [word for path in chosen for word in ("--blocks", path)]
        hashing, _ = best(["sha256sum", *chosen], runs)
        loading, _ = best([program, "jobs", *blocks, "--max-input", "1T", "--jobs", none, "--out", room], runs)
        # The root over the first files is in the last of them. The archive goes to standard output, which is let go.
        getting, peak = best([program, "get", "-q", *blocks, "--root", roots[number - 1]], runs)
        first = first or getting
        print(
            ROW.format(
                number,
                f"{size / GIB:.2f}",
                counts[number - 1],
                f"{hashing:.2f}",
                f"{loading:.2f}",
                f"{getting:.2f}",
                f"{peak / GIB:.2f}",
                f"{(peak - size) / counts[number - 1]:.1f}",
                f"{getting / (number * first):.2f}",
            ),
            flush=True,
        )
        number *= 2


def measure_library(program, room, leaves):
    """Prints what `get` and `verify` take of one library of so many leaves of 200 bytes."""
    paths, roots, counts = write_files(room, 1, leaves, 200)
    out = room / "out.car"
    getting, peak = run_once([program, "get", "-q", "--no-sync", "--blocks", paths[0], "--root", roots[0], "--out", out])
    size = out.stat().st_size
    verifying, checked = run_once([program, "verify", out])
    print(
        f"library of {leaves} leaves, {counts[0]} blocks, {size} bytes: get {getting:.2f} s, peak {peak / GIB:.2f} GiB; "
        f"verify, which finds it sound, {verifying:.2f} s, peak {checked / GIB:.2f} GiB",
        flush=True,
    )


def main():
    parser = argparse.ArgumentParser(description=__doc__)
    parser.add_argument("--files", type=int, default=8, help="a power of two; 0 for the libraries alone")
    parser.add_argument("--leaves", type=int, default=2_497_500, help="the leaves of a file")
    parser.add_argument("--size", type=int, default=392, help="the bytes of a leaf")
    parser.add_argument("--libraries", type=int, nargs="*", default=[1_200_000, 5_000_000], help="their leaves")
    parser.add_argument("--runs", type=int, default=1, help="of how many runs the best counts")
    parser.add_argument("--program", help="in place of the one that is built")
    parser.add_argument("--folder", help="where the files are made and left, in place of a temporary folder")
    words = parser.parse_args()
    program = words.program or subprocess.check_output([TOP / "ix_export", "--where"], text=True).strip()
    with tempfile.TemporaryDirectory(prefix="scale-") as folder:
        room = pathlib.Path(words.folder or folder)
        for leaves in words.libraries:
            measure_library(program, room, leaves)
        if words.files:
            made = write_files(room, words.files, words.leaves, words.size)
            measure_files(program, room, words.runs, *made)


if __name__ == "__main__":
    sys.exit(main())
