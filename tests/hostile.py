#!/usr/bin/env python3
"""Runs the built program on input that is made to hurt it: files cut at each byte, with each byte changed, selectors
and job files cut at each byte, roots of a job cut and changed, blocks with many links, CIDs chosen for one place of the
index, long ones that are alike or are visited often, identity CIDs inside one another, selectors with many recursions or
many places over many lists that are open, headers that name one root often or many roots of one graph, and mutations by
chance.
Ends with status 1 at the first run that is wrong.

No run may end by a signal or take a minute. Where a file is refused, it is one line of the known ones. Where the run
ends with status 0 or 3, each archive is its job's header and sections that agree with their hashes, no CID twice and none
that holds its block; at any other status what there is of an archive begins so. In the end the command `verify` finds the
sections of each of these archives sound, and tells one thing of each file of blocks that was mutated by chance.
"""

import argparse
import base64
import hashlib
import json
import os
import pathlib
import random
import re
import resource
import shutil
import subprocess
import sys
import tempfile

TOP = pathlib.Path(__file__).resolve().parent.parent
PROGRAM = subprocess.run([TOP / "ix_export", "--where"], stdout=subprocess.PIPE, check=True, text=True).stdout.strip()
NO_ROOTS = bytes.fromhex("11a265726f6f7473806776657273696f6e01")
RAW, DAG_CBOR = 0x55, 0x71
IDENTITY, SHA2_256, SHA2_512, BLAKE3 = 0x00, 0x12, 0x13, 0x1E
# What a CID has for its block, by the hash functions that are exported.
DIGESTS = {
    IDENTITY: bytes,
    SHA2_256: lambda block: hashlib.sha256(block).digest(),
    SHA2_512: lambda block: hashlib.sha512(block).digest(),
}
MATCHER = "a1612ea0"
ALL = "a16152a2616ca1646e6f6e65a0623a3ea16161a1613ea16140a0"
TO_DEPTH_2 = "a16152a2616ca165646570746802623a3ea16161a1613ea16140a0"
# The matcher, everything, to a depth, fields, a union of an index and a range, a recursion inside one, an envelope.
SELECTORS = [
    MATCHER,
    ALL,
    TO_DEPTH_2,
    "a16166a162663ea26161a1612ea06162" + ALL,
    "a1617c82a16169a2613ea1612ea0616900a16172a3612402613ea1612ea0615e00",
    "a16152a2616ca1646e6f6e65a0623a3ea16161a1613e" + TO_DEPTH_2,
    "a16873656c6563746f72" + ALL,
]
REFUSALS = re.compile(
    r"(blocks: (truncated|varint|header|cid|version -?\d+) at \d+"
    r"|jobs: (fields|name|root|limit|hex|selector|repeated|too many|text) at line \d+)\n"
)
NO_JOBS = "note: jobs.txt has no job\n"
JOB = re.compile(r"^(\S+) (done|limit|memory|write|start) visits=\d+ kept=\d+ sections=(\d+) bytes=(\d+)$")
SECONDS_A_RUN = 60
# Of the processor; a tenth is usual.
SECONDS_TO_VERIFY = 5
MIB = 1 << 20
# Of address space: more than any run takes, and so few that some runs find no memory, or none for their threads.
KIB_A_RUN = 4_000_000
FEW_KIB = (20_000, 40_000, 300_000)
# Of memory, for each byte of a selector in JSON, or of a job's line: its data as a tree, and then the selector that is read.
BYTES_A_BYTE_OF_JSON = 19
BYTES_A_BYTE_OF_A_LINE = 15
# Three to four is usual; a busy machine may add half of that to what it measures.
MOST_TIMES_HONEST = 6


def varint(number):
    """The number as a varint."""
    out = b""
    while number >= 128:
        out += bytes([number % 128 + 128])
        number //= 128
    return out + bytes([number])


def cid_of(codec, hash_code, digest):
    """The CIDv1 with these parts, each code below 128."""
    return bytes([1, codec, hash_code]) + varint(len(digest)) + digest


def cid(codec, block, hash_code=SHA2_256):
    """The CID of a block; by the identity function it holds the block itself."""
    return cid_of(codec, hash_code, DIGESTS[hash_code](block))


def text(key):
    return "b" + base64.b32encode(key).decode().lower().rstrip("=")


def head(major, number):
    """The head of an item of DAG-CBOR, in its shortest form; the number is below 2^32."""
    if number < 24:
        return bytes([major << 5 | number])
    size = 0 if number < 1 << 8 else 1 if number < 1 << 16 else 2
    return bytes([major << 5 | 24 + size]) + number.to_bytes(1 << size, "big")


def list_of(members):
    return head(4, len(members)) + b"".join(members)


def link(key):
    return b"\xd8\x2a" + head(2, len(key) + 1) + b"\0" + key


def section(key, block):
    return varint(len(key) + len(block)) + key + block


def header(keys):
    """The header of the archive with these roots."""
    body = bytes.fromhex("a265726f6f7473") + list_of([link(key) for key in keys]) + bytes.fromhex("6776657273696f6e01")
    return varint(len(body)) + body


def damaged_list():
    """The sections of a list of two links, the first to a block whose bytes aren't those of its hash."""
    abc = b"abc"
    one = b"\x81" + link(cid(RAW, abc))
    zero = b"\x82" + link(cid(RAW, abc)) + b"\0"
    other = b"\x82" + link(cid(RAW, abc)) + b"\1"
    fork = b"\x82" + link(cid(DAG_CBOR, zero)) + link(cid(DAG_CBOR, one))
    root = cid(DAG_CBOR, fork)
    parts = [(root, fork), (cid(DAG_CBOR, zero), other), (cid(DAG_CBOR, one), one), (cid(RAW, abc), abc)]
    return root, [section(key, block) for key, block in parts]


def inline_list():
    """The sections of a list under SHA-512 of two links, one to an identity CID of a list with a link to `abc`, the other to
    `abc` under SHA-512, and one under the identity CID, which has other bytes."""
    abc = b"abc"
    held = cid(DAG_CBOR, list_of([link(cid(RAW, abc)), b"\0"]), IDENTITY)
    long = cid(RAW, abc, SHA2_512)
    block = list_of([link(held), link(long)])
    root = cid(DAG_CBOR, block, SHA2_512)
    parts = [(root, block), (held, b"\x80"), (long, abc), (cid(RAW, abc), abc)]
    return root, [section(key, part) for key, part in parts]


class Wrong(Exception):
    """A run that is wrong."""


class Runner:
    """Runs the program in a folder of its own, and judges each run."""

    def __init__(self, room):
        self.room, self.runs = room, 0
        for name in ("archives", "inputs"):
            (room / name).mkdir()

    def begin(self, threads, verifiers=None, prefetch="auto"):
        """Begins a run with an empty output folder; answers its command."""
        self.runs += 1
        shutil.rmtree(self.room / "out", ignore_errors=True)
        (self.room / "out").mkdir()
        words = [PROGRAM, "jobs", "--blocks", "blocks.car", "--jobs", "jobs.txt", "--out", "out"]
        return words + ["--walkers", str(threads), "--verifiers", str(verifiers or threads), "--prefetch", prefetch]

    def put(self, car, jobs):
        """Writes the two files of the runs that follow."""
        (self.room / "blocks.car").write_bytes(car)
        (self.room / "jobs.txt").write_bytes(jobs)

    def run(self, car, jobs, threads=1, prefetch="auto"):
        """Runs the jobs over the blocks; answers status, report and line of refusal."""
        self.put(car, jobs)
        words = self.begin(threads, prefetch=prefetch)
        try:
            done = subprocess.run(words, cwd=self.room, capture_output=True, timeout=SECONDS_A_RUN)
        except subprocess.TimeoutExpired:
            raise Wrong(f"it took {SECONDS_A_RUN} seconds") from None
        report, error = done.stdout.decode(), done.stderr.decode()
        if done.returncode not in (0, 2, 3, 4):
            raise Wrong(f"status {done.returncode}, {error!r}")
        if done.returncode == 2:
            if report or not REFUSALS.fullmatch(error):
                raise Wrong(f"refused with {report!r} and {error!r}")
        else:
            if error and (error != NO_JOBS or not report.startswith("total jobs=0 ")):
                raise Wrong(f"standard error has {error!r}")
            self.judge(report, self.room / "out")
        return done.returncode, report, error

    def measure(self, threads=1, kib=KIB_A_RUN, verifiers=None):
        """Runs the jobs that were put last, in so much address space; answers how it ended, what it took and its line of
        refusal. Its report is in the file `report`."""
        words = [sys.executable, TOP / "tests/hostile/measure.py", "measured", str(kib), str(SECONDS_A_RUN)]
        words += self.begin(threads, verifiers)
        with open(self.room / "report", "wb") as report, open(self.room / "error", "wb") as error:
            subprocess.run(words, cwd=self.room, stdout=report, stderr=error, check=True)
        told = json.loads((self.room / "measured").read_text())
        told["error"] = (self.room / "error").read_text()
        if told["status"] not in (0, 2, 3, 4):
            raise Wrong(f"status {told['status']}, {told['error'][:200]!r}")
        return told

    def judge(self, report, out):
        """Looks at the archives that the report tells of."""
        told = [found.groups() for line in report.splitlines() if (found := JOB.match(line))]
        if not report.splitlines()[-1].startswith(f"total jobs={len(told)} done="):
            raise Wrong(f"the report doesn't end with its total: {report!r}")
        for name, end, sections, size in told:
            if end not in ("done", "limit"):
                raise Wrong(f"job {name} ended with {end}")
            archive = (out / f"{name}.car").read_bytes()
            if len(archive) != int(size) or count_sections(archive) != int(sections):
                raise Wrong(f"the archive of {name} has other bytes or sections than the report says")
            os.link(out / f"{name}.car", self.room / f"archives/{self.runs}-{name}.car")

    def verify(self, folder, statuses, *options):
        """Verifies the files of a folder, of each of which one thing is told."""
        names = sorted(os.listdir(self.room / folder))
        for at in range(0, len(names), 1000):
            some = names[at : at + 1000]
            done = subprocess.run([PROGRAM, "verify", *options, *some], cwd=self.room / folder, capture_output=True, text=True)
            lines = done.stdout.splitlines() + done.stderr.splitlines()
            told = [line for line in lines if not line.startswith("  ")]
            if done.returncode not in statuses or len(told) != len(some):
                raise Wrong(f"verify tells of {len(told)} of {len(some)} files, status {done.returncode}: {told[-3:]!r}")
        return len(names)


def read_varint(data, at):
    number = shift = 0
    while data[at] >= 128:
        number |= (data[at] & 127) << shift
        shift, at = shift + 7, at + 1
    return number | data[at] << shift, at + 1


def read_cid(data, at):
    """The hash code and the digest of the CIDv1 at a place, and the place behind it."""
    _, at = read_varint(data, at)
    _, at = read_varint(data, at)
    hash_code, at = read_varint(data, at)
    length, at = read_varint(data, at)
    return hash_code, data[at : at + length], at + length


def count_sections(archive):
    """How many sections there are, each with a CIDv1 under SHA-256 or SHA-512 that agrees with its block, and no CID twice."""
    length, at = read_varint(archive, 0)
    at += length
    seen = set()
    while at < len(archive):
        length, begin = read_varint(archive, at)
        at = begin + length
        hash_code, digest, middle = read_cid(archive, begin)
        key, block = archive[begin:middle], archive[middle:at]
        if at > len(archive) or key in seen or hash_code not in (SHA2_256, SHA2_512) or digest != DIGESTS[hash_code](block):
            raise Wrong(f"the section {key[:100].hex()} is wrong")
        seen.add(key)
    return len(seen)


def wanted(came, status, line):
    if came[0] != status or came[2] != line:
        raise Wrong(f"status {status} and {line!r} were wanted, {came[0]} and {came[2]!r} came")


def cut_blocks(runner):
    """The file of blocks, cut to each length: blocks where a section ends, and else truncated where the last begins."""
    _, sections = damaged_list()
    whole = NO_ROOTS + b"".join(sections)
    begins = [0]
    for part in [NO_ROOTS] + sections:
        begins.append(begins[-1] + len(part))
    for length in range(len(whole) + 1):
        came = runner.run(whole[:length], b"")
        if length in begins[1:]:
            wanted(came, 0, NO_JOBS)
        else:
            wanted(came, 2, f"blocks: truncated at {max(begin for begin in begins if begin <= length)}\n")


def changed_blocks(runner):
    """Two files of blocks with the lowest bit of each byte changed."""
    for root, sections in (damaged_list(), inline_list()):
        whole = NO_ROOTS + b"".join(sections)
        job = f"a {text(root)} 100 {ALL}\n".encode()
        for place in range(len(whole)):
            runner.run(whole[:place] + bytes([whole[place] ^ 1]) + whole[place + 1 :], job, 2)


def cut_selectors(runner):
    """Each selector, cut to each number of digits: the line is refused for it, or for its fields where none is left."""
    root, sections = damaged_list()
    whole = NO_ROOTS + b"".join(sections)
    for selector in SELECTORS:
        for digits in range(len(selector)):
            word = "fields" if digits == 0 else "hex" if digits % 2 else "selector"
            came = runner.run(whole, f"a {text(root)} 100 {selector[:digits]}\n".encode())
            wanted(came, 2, f"jobs: {word} at line 1\n")
        if runner.run(whole, f"a {text(root)} 100 {selector}\n".encode())[0] == 2:
            raise Wrong("a whole selector was refused")


def cut_jobs(runner):
    """The job file of the examples, cut to each length."""
    blocks = (TOP / "examples/library.car").read_bytes()
    jobs = (TOP / "examples/library.jobs").read_bytes()
    for length in range(len(jobs) + 1):
        runner.run(blocks, jobs[:length])


def several_roots(runner):
    """A job line of three roots: cut behind each of their characters, with each of them changed, and whole."""
    root, sections = damaged_list()
    whole = NO_ROOTS + b"".join(sections)
    keys = [cid(RAW, b"abc"), root, cid(RAW, b"abc")]
    texts = [text(key) for key in keys]
    roots = ",".join(texts)
    for length in range(len(roots)):
        parts = roots[:length].split(",")
        came = runner.run(whole, f"a {roots[:length]} 100 {ALL}\n".encode(), 2)
        if parts != texts[: len(parts)]:
            wanted(came, 2, f"jobs: {'root' if length else 'fields'} at line 1\n")
        elif came[0] == 2:
            raise Wrong("whole roots were refused")
    for place in range(len(roots)):
        changed = roots[:place] + chr(ord(roots[place]) ^ 1) + roots[place + 1 :]
        runner.run(whole, f"a {changed} 100 {ALL}\n".encode(), 2)
    runner.run(whole, f"a {roots} 100 {ALL}\n".encode(), 2)
    if not (runner.room / "out/a.car").read_bytes().startswith(header(keys)):
        raise Wrong("the header has other roots")


def wide_blocks(runner):
    """Blocks with many links: a damaged one with 20,000 to itself, which takes some hundred bytes for a visit that is
    open, and is hashed and read once for all of 100,000 visits; and a map of 100,000."""
    itself = cid(DAG_CBOR, b"")
    block = list_of([link(itself)] * 20_000)
    blocks = NO_ROOTS + section(itself, block)
    for threads, prefetch in ((4, "off"), (4, "on"), (1, "off"), (1, "on")):
        came = runner.run(blocks, f"a {text(itself)} 100000 {ALL}\n".encode(), threads, prefetch)
        if came[0] != 4 or not came[1].startswith("a limit visits=100000 kept=1 sections=0 "):
            raise Wrong(f"100,000 visits were wanted: {came[1][:80]!r}")
    if (most := runner.measure()["peak"]) > len(blocks) + 64 * MIB:
        raise Wrong(f"a walk through {len(blocks)} bytes took {most}")
    leaf = cid(RAW, b"abc")
    keys = [b"\x65" + f"{number:05}".encode() for number in range(100_000)]
    block = head(5, len(keys)) + b"".join(key + link(leaf) for key in keys)
    root = cid(DAG_CBOR, block)
    came = runner.run(NO_ROOTS + section(root, block) + section(leaf, b"abc"), f"a {text(root)} 1000000 {ALL}\n".encode(), 2)
    if came[0] != 0 or not came[1].startswith("a done visits=100001 kept=100001 sections=2 "):
        raise Wrong(f"100,001 visits were wanted: {came[1][:80]!r}")


def loading_times(room, workloads):
    """The processor seconds of the program over so many small blocks under each kind of CIDs, the least of five runs,
    which take turns."""
    for workload in workloads:
        words = [sys.executable, TOP / "bench/generate.py", workload, "200000", room / workload]
        subprocess.run(words, check=True)
    least = dict.fromkeys(workloads, float("inf"))
    for _ in range(5):
        for workload in workloads:
            folder = room / workload
            words = [PROGRAM, "jobs", "--blocks", folder / "blocks.car", "--jobs", folder / "jobs.txt", "--out", folder]
            child = subprocess.Popen(words + ["--walkers", "1", "--verifiers", "1"], stdout=subprocess.DEVNULL)
            _, status, used = os.wait4(child.pid, 0)
            child.returncode = os.waitstatus_to_exitcode(status)
            if child.returncode != 0:
                raise Wrong(f"status {child.returncode} of {workload}")
            least[workload] = min(least[workload], used.ru_utime + used.ru_stime)
    return least


def chosen_cids(runner):
    """200,000 CIDs that strangers chose so that they stand in one place of the index: to load them takes a few times
    as long as to load honest ones, and not thousands of times."""
    seconds = loading_times(runner.room, ("random-cids", "prefix-cids", "bucket-cids"))
    for workload in ("prefix-cids", "bucket-cids"):
        runner.runs += 1
        if seconds[workload] > MOST_TIMES_HONEST * seconds["random-cids"]:
            raise Wrong(f"{workload} took {seconds[workload]:.2f} seconds, random ones {seconds['random-cids']:.2f}")


def long_cids(runner):
    """Ten sections under one number of the index, more than a look-up goes through, of which the last two have CIDs of
    16 MB that agree up to their last bytes: these are told apart without a stack that is as deep as they are long."""
    leaf = cid(RAW, b"abc")
    tail = leaf[-8:]
    others = [cid_of(RAW, SHA2_256, bytes(23) + bytes([number]) + tail) for number in range(7)]
    long = [cid_of(RAW, SHA2_256, bytes(15_999_991) + bytes([last]) + tail) for last in (0, 1)]
    blocks = NO_ROOTS + section(leaf, b"abc") + b"".join(section(key, b"") for key in others + long)
    came = runner.run(blocks, f"a {text(leaf)} 1 {MATCHER}\n".encode())
    if came[0] != 0 or not came[1].startswith("a done visits=1 kept=1 sections=1 "):
        raise Wrong(f"one sound visit was wanted: {came[1][:80]!r}")


def nested_cids(levels, front=b"", behind=b""):
    """The outermost of so many identity CIDs inside one another: the innermost holds an empty list, each other one its link to
    the next between these bytes."""
    fronts, size = [], 1
    for level in range(levels):
        if level > 0:
            size += len(fronts[-1])
            fronts.append(front + b"\xd8\x2a" + head(2, size + 1) + b"\0")
            size += len(fronts[-1]) + len(behind)
        fronts.append(bytes([1, DAG_CBOR, IDENTITY]) + varint(size))
    return b"".join(reversed(fronts)) + b"\x80" + behind * (levels - 1)


def ends_well(runner, blocks, jobs, line):
    """Runs jobs with identity CIDs, which take less than a second and little memory, and again in few KiB."""
    came = runner.run(blocks, jobs)
    if came[0] != 0 or not came[1].startswith(line):
        raise Wrong(f"{line!r} was wanted: status {came[0]}, {came[1][:80]!r}")
    told = runner.measure()
    if told["seconds"] > 1:
        raise Wrong(f"{len(blocks)} bytes of blocks took {told['seconds']:.2f} seconds")
    if told["peak"] > len(blocks) + len(jobs) + 64 * MIB:
        raise Wrong(f"{len(blocks)} bytes of blocks took {told['peak']} of memory")
    in_few_kib(runner, (0, 2, 4))


def in_few_kib(runner, statuses, threads=1):
    """Runs the jobs of the last run again in few KiB: each run ends with one of these statuses, tells want of memory or of
    threads where it isn't as before, and the archive of `a` is the same, or else a beginning of it."""
    whole = (runner.room / "out/a.car").read_bytes()
    for kib in FEW_KIB:
        told = runner.measure(threads, kib)
        with open(runner.room / "report", "rb") as report:
            line = report.readline(100).decode()
        is_refused = told["status"] == 2 and not line and told["error"] == "memory\n"
        is_told = told["status"] != 2 and not told["error"] and re.match("a (done|limit|memory|start) ", line)
        if told["status"] not in statuses or not (is_refused or is_told):
            raise Wrong(f"in {kib} KiB: status {told['status']}, {line!r} and {told['error'][:200]!r}")
        for archive in (runner.room / "out").iterdir():
            came = archive.read_bytes()
            if not whole.startswith(came) or archive.name == "a.car" and came != whole:
                raise Wrong(f"in {kib} KiB: {archive.name} is another archive")


def inline_chains(runner):
    """100,000 identity CIDs inside one another: each one link, in a block and as the root; and each a list with a link behind,
    to which the walk goes back."""
    chain = nested_cids(100_000)
    block = link(chain)
    root = cid(DAG_CBOR, block)
    jobs = f"a {text(root)} 1000000 {MATCHER}\n".encode()
    ends_well(runner, NO_ROOTS + section(root, block), jobs, "a done visits=100001 kept=100001 sections=1 ")
    jobs = f"a {text(chain)} 1000000 {MATCHER}\n".encode()
    ends_well(runner, NO_ROOTS, jobs, "a done visits=100000 kept=100000 sections=0 ")
    if (runner.room / "out/a.car").read_bytes() != header([chain]):
        raise Wrong("the archive isn't the header with the chain")
    block = link(nested_cids(100_000, b"\x82", link(cid(RAW, b"", IDENTITY))))
    root = cid(DAG_CBOR, block)
    jobs = f"a {text(root)} 1000000 {ALL}\n".encode()
    ends_well(runner, NO_ROOTS + section(root, block), jobs, "a done visits=200000 kept=200000 sections=1 ")


def inline_links(runner):
    """A block with links to 10,000 identity CIDs of up to 60 bytes, under its hash and in an identity CID of its own."""
    keys = [cid(RAW, bytes(number % 61), IDENTITY) for number in range(5_000)]
    keys += [cid(DAG_CBOR, list_of([b"\0"] * (number % 59)), IDENTITY) for number in range(5_000)]
    block = list_of([link(key) for key in keys])
    root = cid(DAG_CBOR, block)
    jobs = f"a {text(root)} 1000000 {ALL}\n".encode()
    ends_well(runner, NO_ROOTS + section(root, block), jobs, "a done visits=10001 kept=10001 sections=1 ")
    jobs = f"a {text(cid(DAG_CBOR, block, IDENTITY))} 1000000 {ALL}\n".encode()
    ends_well(runner, NO_ROOTS, jobs, "a done visits=10001 kept=10001 sections=0 ")


def linked_often(key, times, hash_code=SHA2_256):
    """The file of a list that links so often to a block with a link to this CID, and the text of the list's CID."""
    block = list_of([link(key)])
    holder = cid(DAG_CBOR, block, hash_code)
    many = list_of([link(holder)] * times)
    root = cid(DAG_CBOR, many)
    return NO_ROOTS + section(root, many) + section(holder, block), text(root)


def long_skips(runner):
    """A link to a CID of 10 MB under a hash function that isn't exported, visited 20 times: what is taken is the file, the
    report's text of 320 MB and little else; and where the report finds no room, that is told."""
    key = cid_of(RAW, BLAKE3, bytes(range(250)) * 40_000)
    long = text(key).encode()
    blocks, root = linked_often(key, 20)
    runner.put(blocks, f"a {root} 100 {ALL}\n".encode())
    told = runner.measure()
    if told["status"] != 3:
        raise Wrong(f"status 3 was wanted, {told['status']} with {told['error'][:200]!r} came")
    with open(runner.room / "report", "rb") as report:
        lines = [report.readline().startswith(b"a done visits=41 kept=41 sections=2 ")]
        lines += [report.readline() == b"  %d hash %s\n" % (number, long) for number in range(2, 41, 2)]
        if not all(lines) or report.read() != b"total jobs=1 done=1 skips=20\n":
            raise Wrong("the report is another")
        size = report.tell()
    if told["peak"] > len(blocks) + size + 64 * MIB:
        raise Wrong(f"{len(blocks)} bytes of blocks and {size} of the report took {told['peak']} of memory")
    in_few_kib(runner, (2, 4))


def long_inline(runner):
    """A link to a raw identity CID of 10 MB, visited 1,000 times: the block that holds it is hashed as often, and little
    memory is taken beside the file. In few KiB, 50 times."""
    key = cid(RAW, bytes(range(250)) * 40_000, IDENTITY)
    blocks, root = linked_often(key, 1_000, SHA2_512)
    runner.put(blocks, f"a {root} 2001 {ALL}\n".encode())
    told = runner.measure(4)
    line = (runner.room / "report").read_bytes()[:100]
    if told["status"] != 0 or not line.startswith(b"a done visits=2001 kept=2001 sections=2 "):
        raise Wrong(f"2,001 visits were wanted: status {told['status']}, {line!r}")
    if told["peak"] > len(blocks) + 64 * MIB:
        raise Wrong(f"{len(blocks)} bytes of blocks took {told['peak']} of memory")
    runner.put(blocks, f"a {root} 101 {ALL}\n".encode())
    if (status := runner.measure(4)["status"]) != 4:
        raise Wrong(f"a job at its limit ended with status {status}")
    in_few_kib(runner, (2, 4), 4)


def many_visits(runner):
    """A thousand jobs of 20,000 visits over less than 3 KB, with four verifiers and with one: no visit leaves anything in
    memory, so little is taken but the buffers of the archives, 16 KiB each."""
    block, sections = b"\x80", []
    for _ in range(6):
        key = cid(DAG_CBOR, block)
        sections.append(section(key, block))
        block = list_of([link(key)] * 10)
    root = cid(DAG_CBOR, block)
    sections.append(section(root, block))
    jobs = "".join(f"j{number} {text(root)} 20000 {ALL}\n" for number in range(1000))
    # Each archive is an open file.
    hard = resource.getrlimit(resource.RLIMIT_NOFILE)[1]
    resource.setrlimit(resource.RLIMIT_NOFILE, (min(hard, 2000), hard))
    runner.put(NO_ROOTS + b"".join(sections), jobs.encode())
    for verifiers in (4, 1):
        told = runner.measure(4, verifiers=verifiers)
        ended = (runner.room / "report").read_bytes().count(b" limit visits=20000 kept=20000 sections=7 ")
        if told["status"] != 4 or ended != 1000:
            raise Wrong(f"1,000 jobs were to end at their limit: status {told['status']}, {ended} did")
        if told["peak"] > 64 * MIB:
            raise Wrong(f"{verifiers} verifiers: 1,000 jobs of 20,000 visits took {told['peak']} of memory")


def recursion(members):
    """A recursion without a limit over a union."""
    return bytes.fromhex("a16152a2616ca1646e6f6e65a0623a3ea1617c") + list_of(members)


def done_in(runner, blocks, job, seconds, kib):
    """Runs one job that reaches all of the blocks in these bytes, within so many seconds and so many KiB of address space;
    answers the seconds."""
    line, visits, selector = job
    root = cid(DAG_CBOR, line)
    jobs = f"a {text(root)} 1000000 {selector.hex()}\n".encode()
    runner.put(NO_ROOTS + blocks, jobs)
    told = runner.measure(1, kib)
    report = (runner.room / "report").read_text()
    if told["status"] != 0 or not report.startswith(f"a done visits={visits} kept={visits} sections={visits} "):
        raise Wrong(f"with a selector of {len(selector)} bytes: status {told['status']}, {told['error'][:80]!r}, {report[:80]!r}")
    if told["seconds"] > seconds:
        raise Wrong(f"{len(blocks)} bytes of blocks and a selector of {len(selector)} bytes took {told['seconds']:.2f} seconds")
    return told["seconds"]


def many_recursions(runner):
    """A list of 5,000 empty lists, and a union of 1,000 members inside 30 and inside 60 recursions, each with an edge of its
    own, so that each child enters all of them again: the time doesn't grow with the recursions times the members."""
    edge, member = bytes.fromhex("a16161a1613ea16140a0"), bytes.fromhex("a16161a1613e" + MATCHER)
    block = list_of([b"\x80"] * 5_000)
    blocks = section(cid(DAG_CBOR, block), block)
    times = []
    for levels in (30, 60):
        selector = recursion([edge] + [member] * 1_000)
        for _ in range(levels - 1):
            selector = recursion([edge, selector])
        times.append(done_in(runner, blocks, (block, 1, selector), 3, KIB_A_RUN))
    if times[1] > 2 * times[0] + 0.5:
        raise Wrong(f"30 recursions took {times[0]:.2f} seconds, 60 took {times[1]:.2f}")


def many_open(runner):
    """500 lists inside one another, and 500 blocks each of which links to the next before its end, by a selector that is
    left with 10,000 places in each: they are kept once, and not for each list that is open."""
    selector = recursion([bytes.fromhex("a16161a1613ea16140a0")] * 10_000)
    nested = b"\x81" * 499 + b"\x80"
    done_in(runner, section(cid(DAG_CBOR, nested), nested), (nested, 1, selector), SECONDS_A_RUN, 100_000)
    block, sections = b"\x80", []
    for _ in range(500):
        sections.append(section(cid(DAG_CBOR, block), block))
        block = list_of([link(cid(DAG_CBOR, block)), b"\0"])
    sections.append(section(cid(DAG_CBOR, block), block))
    done_in(runner, b"".join(sections), (block, 501, selector), SECONDS_A_RUN, 100_000)


def measured_words(runner, words, given=b""):
    """Runs the program with these words and this standard input; answers how it ended and what it took. Where it ended with a
    line on standard error, that is told too."""
    runner.runs += 1
    (runner.room / "given").write_bytes(given)
    command = [sys.executable, TOP / "tests/hostile/measure.py", "measured", str(KIB_A_RUN), str(SECONDS_A_RUN), PROGRAM, *words]
    with open(runner.room / "given", "rb") as stdin, open(runner.room / "error", "wb") as error:
        subprocess.run(command, cwd=runner.room, stdin=stdin, stdout=subprocess.DEVNULL, stderr=error, check=True)
    told = json.loads((runner.room / "measured").read_text())
    told["error"] = (runner.room / "error").read_text()
    return told


def json_of_fields(count, order=1):
    """A selector in JSON of so many fields with keys that rise, or that fall where the order is -1."""
    return ('{"f":{"f>":{' + ",".join([f'"{number:08}":{{".":{{}}}}' for number in range(count)][::order]) + "}}}").encode()


def keys_in_any_order(runner):
    """Selectors in JSON of 1.9 MB with keys that rise and that fall: either takes less than a second, and a key that comes
    twice is refused wherever it stands."""
    for order in (1, -1):
        told = measured_words(runner, ["selector", "-"], json_of_fields(90_000, order))
        if told["status"] != 0 or told["seconds"] > 1:
            raise Wrong(f"90,000 keys, status {told['status']}, took {told['seconds']:.2f} seconds in the order {order}")
    twice = json_of_fields(90_000, -1).replace(b'"00000000"', b'"00089999"')
    told = measured_words(runner, ["selector", "-"], twice)
    if told["status"] != 2 or told["error"] != "selector: repeated key\n" or told["seconds"] > 1:
        raise Wrong(f"a key that comes twice: {told}")


def ignored_keys(runner):
    """A header with a key that is ignored, of which the value has 10,000,000 members: it takes little more than the file. One
    whose ignored value doesn't decode is refused, and so is one whose version stands inside of that value."""
    version, roots = b"\x67version\x01", b"\x65roots\x80"
    many = b"\x9a" + (10_000_000).to_bytes(4, "big") + b"\x80" * 10_000_000
    for value, end, line in (
        (many, roots + version, None),
        (many[:-1] + b"\xff", roots + version, "header"),
        (b"\xa2" + roots + version, roots, "header"),
    ):
        body = head(5, 2 if end == roots else 3) + b"\x61x" + value + end
        car = varint(len(body)) + body
        (runner.room / "blocks.car").write_bytes(car)
        told = measured_words(runner, ["jobs", "--blocks", "blocks.car", "--jobs", "/dev/null", "--out", "."])
        wanted_end = (2, f"blocks: {line} at 0\n") if line else (0, "note: /dev/null has no job\n")
        if (told["status"], told["error"]) != wanted_end:
            raise Wrong(f"a header of {len(body)} bytes: {told}")
        if told["peak"] > len(car) + 64 * MIB:
            raise Wrong(f"a header of {len(body)} bytes took {told['peak']} of memory")


def long_selector(runner):
    """A selector of a million fields as JSON of 20 MB: what is taken is bounded by the text."""
    given = json_of_fields(1_000_000)
    told = measured_words(runner, ["selector", "-"], given)
    if told["status"] != 0 or told["peak"] > BYTES_A_BYTE_OF_JSON * len(given) + 32 * MIB:
        raise Wrong(f"JSON of {len(given)} bytes, status {told['status']}, took {told['peak']} of memory")


def long_line(runner):
    """A job line with a selector of a million fields, 26 MB in hex: what is taken is bounded by the line."""
    fields = b"".join(b"\x68%08d\xa1\x61.\xa0" % number for number in range(1_000_000))
    selector = b"\xa1\x61f\xa1\x62f>" + head(5, 1_000_000) + fields
    given = f"a {text(cid(RAW, b'abc'))} 1 {selector.hex()}\n".encode()
    told = measured_words(runner, ["check-jobs", "-"], given)
    if told["status"] != 0 or told["peak"] > BYTES_A_BYTE_OF_A_LINE * len(given) + 32 * MIB:
        raise Wrong(f"a line of {len(given)} bytes, status {told['status']}, took {told['peak']} of memory")


def small_sections(runner):
    """A million sections of 8 bytes, none of which is sound: `inspect` and `verify` take at most a tenth more memory than `jobs`
    does."""
    car = NO_ROOTS + b"".join(b"\x07\x01\x55\0\x03" + number.to_bytes(3, "big") for number in range(1_000_000))
    (runner.room / "small.car").write_bytes(car)
    (runner.room / "no-jobs.txt").write_bytes(b"")
    (runner.room / "no-archives").mkdir(exist_ok=True)
    jobs = ["jobs", "--blocks", "small.car", "--jobs", "no-jobs.txt", "--out", "no-archives"]
    peaks = {}
    for words, status in ((jobs, 0), (["inspect", "small.car"], 0), (["verify", "small.car"], 3)):
        told = measured_words(runner, words)
        if told["status"] != status:
            raise Wrong(f"{words[0]} ended with status {told['status']}: {told['error'][:200]!r}")
        peaks[words[0]] = told["peak"]
    if max(peaks.values()) > 1.1 * peaks["jobs"]:
        raise Wrong(f"{len(car)} bytes of small sections took {peaks}")


def usual_sections(runner):
    """A million raw blocks of 8 bytes: `inspect` takes at most a tenth more memory than `jobs` does, and with `--list` hardly more than
    the file has."""
    car = [NO_ROOTS]
    for number in range(1_000_000):
        block = number.to_bytes(8, "little")
        car.append(b"\x2c\x01\x55\x12\x20" + hashlib.sha256(block).digest() + block)
    car = b"".join(car)
    (runner.room / "usual.car").write_bytes(car)
    (runner.room / "no-jobs.txt").write_bytes(b"")
    (runner.room / "no-archives").mkdir(exist_ok=True)
    jobs = ["jobs", "--blocks", "usual.car", "--jobs", "no-jobs.txt", "--out", "no-archives"]
    peaks = []
    for words in (jobs, ["inspect", "usual.car"], ["inspect", "--list", "usual.car"]):
        told = measured_words(runner, words)
        if told["status"] != 0:
            raise Wrong(f"{words[0]} ended with status {told['status']}: {told['error'][:200]!r}")
        peaks.append(told["peak"])
    if peaks[1] > 1.1 * peaks[0] or peaks[2] > len(car) + 8 * MIB:
        raise Wrong(f"{len(car)} bytes of raw blocks took `jobs`, `inspect` and its list {peaks}")


def told_memory(runner):
    """`jobs` takes what `inspect` says of a file at most, and no less than two thirds of it."""
    car = NO_ROOTS + b"".join(section(cid(RAW, b"%d" % number), b"%d" % number) for number in range(500_000))
    (runner.room / "told.car").write_bytes(car)
    done = subprocess.run([PROGRAM, "inspect", "told.car"], cwd=runner.room, capture_output=True, text=True, check=True)
    most = int(done.stdout.split("\nmemory ")[1])
    told = measured_words(runner, ["jobs", "--blocks", "told.car", "--jobs", "no-jobs.txt", "--out", "no-archives"])
    if told["status"] != 0 or not most * 2 / 3 <= told["peak"] <= most:
        raise Wrong(f"inspect says that 500,000 sections take {most} of memory at most, and they took {told['peak']}")


def verified(runner, car, status, line):
    """The command `verify` ends with this status, the first of at most 22 lines says this of the file, and it takes no more
    memory than the file and 64 MiB, and few seconds of the processor."""
    (runner.room / "verified.car").write_bytes(car)
    words = [sys.executable, TOP / "tests/hostile/measure.py", "measured", str(KIB_A_RUN), str(SECONDS_A_RUN)]
    with open(runner.room / "report", "wb") as report:
        subprocess.run(words + [PROGRAM, "verify", "verified.car"], cwd=runner.room, stdout=report, check=True)
    told = json.loads((runner.room / "measured").read_text())
    with open(runner.room / "report") as report:
        lines = report.read(1 << 16).splitlines()
    if told["status"] != status or lines[0] != f"verified.car {line}" or len(lines) > 22:
        raise Wrong(f"verify ends with status {told['status']} and {len(lines)} lines, the first {lines[0]!r}")
    if told["peak"] > len(car) + 64 * MIB or told["seconds"] > SECONDS_TO_VERIFY:
        raise Wrong(f"{len(car)} bytes took {told['peak']} of memory and {told['seconds']} seconds of the processor")


def root_named_often(runner):
    """A header that names one root 3,000 times, a list of links to 3,000 blocks that are missing."""
    block = list_of([link(cid(RAW, b"%d" % number)) for number in range(3_000)])
    root = cid(DAG_CBOR, block)
    car = header([root] * 3_000) + section(root, block)
    verified(runner, car, 3, f"incomplete sections=1 bytes={len(car)} unsound=0 skips=3000")


def roots_with_one_graph(runner):
    """10,000 roots, each a list with a link to one list of 100,000 links: each link is followed once."""
    leaf = cid(RAW, b"abc")
    shared = list_of([link(leaf)] * 100_000)
    shared_key = cid(DAG_CBOR, shared)
    blocks = [list_of([link(shared_key), head(0, number)]) for number in range(10_000)]
    car = header([cid(DAG_CBOR, block) for block in blocks]) + section(leaf, b"abc") + section(shared_key, shared)
    car += b"".join(section(cid(DAG_CBOR, block), block) for block in blocks)
    verified(runner, car, 0, f"sound sections=10002 bytes={len(car)}")


def mutated(chance, data, words):
    """The bytes with some changes: bits, bytes, cuts, and pieces that come twice or elsewhere."""
    data = bytearray(data)
    for _ in range(chance.choice((1, 1, 2, 5))):
        at = chance.randrange(len(data) + 1)
        to = min(len(data), at + chance.choice((1, 2, 9, 40, 200)))
        change = chance.randrange(6)
        if change == 0 and at < len(data):
            data[at] ^= 1 << chance.randrange(8)
        elif change == 1 and at < len(data):
            data[at] = chance.randrange(256)
        elif change == 2:
            del data[at:to]
        elif change == 3:
            data[at:at] = chance.choice(words)
        elif change == 4:
            piece = bytes(data[at:to])
            there = chance.randrange(len(data) + 1)
            data[there:there] = piece
        elif chance.random() < 0.2:
            del data[at:]
    return bytes(data)


def graph(chance):
    """A file of some blocks with links among them, and jobs over it."""
    keys, sections = [], [NO_ROOTS]
    for _ in range(chance.randrange(1, 12)):
        if not keys or chance.random() < 0.3:
            codec, block = RAW, chance.randbytes(chance.randrange(40))
        else:
            codec, block = DAG_CBOR, list_of([link(chance.choice(keys)) for _ in range(chance.randrange(1, 5))])
        hash_code = chance.choice((SHA2_256, SHA2_256, SHA2_512, IDENTITY)) if len(block) < 400 else SHA2_256
        keys.append(cid(codec, block, hash_code))
        if keys[-1][2] != IDENTITY or chance.random() < 0.2:
            sections.append(section(keys[-1], block))
    lines = []
    for number in range(chance.randrange(1, 6)):
        roots = ",".join(text(chance.choice(keys)) for _ in range(chance.choice((1, 1, 2, 3))))
        limit = chance.choice((1, 3, 100, 1000))
        lines.append(f"job-{number} {roots} {limit} {chance.choice(SELECTORS)}\n")
    return b"".join(sections), "".join(lines).encode()


def fuzz(runner, seed, runs):
    """Mutations of graphs by chance, by four walkers and four verifiers, with prefetching, without it and as the program
    chooses in turn; of each kind as many runs."""
    for number in range(runs):
        chance = random.Random(f"{seed}-{number}")
        blocks, jobs = graph(chance)
        what = chance.randrange(4)
        if what != 1:
            blocks = mutated(chance, blocks, [b"\xff" * 9, b"\xd8\x2a", b"\x9b" + b"\xff" * 8, blocks[18:60]])
        if what != 0:
            words = [b" ", b",", b"\n", b"#", b"\xc3", jobs[:30], ALL.encode(), b"1000000", b"a1617c82"]
            jobs = mutated(chance, jobs, words)
        (runner.room / f"inputs/{number}.car").write_bytes(blocks)
        try:
            runner.run(blocks, jobs, 4, ("auto", "on", "off")[number % 3])
        except Wrong as wrong:
            raise Wrong(f"seed {seed}-{number}: {wrong}") from None


PARTS = (
    wide_blocks,
    chosen_cids,
    long_cids,
    inline_chains,
    inline_links,
    long_skips,
    long_inline,
    many_visits,
    cut_blocks,
    changed_blocks,
    cut_selectors,
    cut_jobs,
    several_roots,
    many_recursions,
    many_open,
    keys_in_any_order,
    ignored_keys,
    long_selector,
    long_line,
    small_sections,
    usual_sections,
    told_memory,
    root_named_often,
    roots_with_one_graph,
)


def main():
    parser = argparse.ArgumentParser(description=__doc__)
    parser.add_argument("--seed", type=int, default=1)
    parser.add_argument("--runs", type=int, default=600, help="how many mutations are tried")
    words = parser.parse_args()
    with tempfile.TemporaryDirectory(prefix="hostile-") as room:
        runner = Runner(pathlib.Path(room))
        for part in PARTS:
            try:
                part(runner)
            except Wrong as wrong:
                print(f"tests/hostile.py: FAILED: {part.__name__}, run {runner.runs}: {wrong}", file=sys.stderr)
                return 1
        try:
            fuzz(runner, words.seed, words.runs)
            archives = runner.verify("archives", (0,), "--blocks-only")
            inputs = runner.verify("inputs", (0, 2, 3))
        except Wrong as wrong:
            print(f"tests/hostile.py: FAILED: {wrong}", file=sys.stderr)
            return 1
        print(f"tests/hostile.py: {runner.runs} runs passed, {archives} archives and {inputs} inputs verified")
    return 0


if __name__ == "__main__":
    sys.exit(main())
