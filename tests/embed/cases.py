#!/usr/bin/env python3
"""Runs the cases of crates/ix_cases/data that say something of stores, jobs, selectors and exports through the library for C,
and compares what its calls answer with what is wanted: crates/ix_cases/README.md has the words.

A run of an example is gone through job by job, over its file of blocks and over a store to which the blocks are added one by
one, and each job both as its line and as its parts: archive, report, end, counts and skips are compared. Where a job's writer
takes less than all, the wanted archive is a beginning of what the library makes, since that has room for all.

usage: cases.py LIBRARY.so      ends with status 1 at the first that differs"""
import base64
import ctypes
import pathlib
import re
import sys

CRATE = pathlib.Path(__file__).resolve().parents[2] / "crates/ix_cases"
DONE, REFUSED, KNOWN, NO_CID, RANGE = 0, 2, 4, 5, 6
ENDS = ["done", "limit", "memory", "write", "start"]
WHYS = ["codec", "hash", "missing", "damaged", "malformed"]
MATCHER = bytes.fromhex("a1612ea0")
HEADER = "11a265726f6f7473806776657273696f6e01"


class Handle(ctypes.Structure):
    _fields_ = [("is_held", ctypes.c_bool), ("held", ctypes.c_void_p)]


class Counts(ctypes.Structure):
    _fields_ = [(name, ctypes.c_uint32) for name in ("end", "visits", "kept", "sections")]
    _fields_ += [(name, ctypes.c_uint64) for name in ("bytes", "skips")]


class Skip(ctypes.Structure):
    _fields_ = [("visit", ctypes.c_uint32), ("why", ctypes.c_uint32)]


class Differs(Exception):
    pass


def expect(name, came, wanted):
    if came != wanted:
        raise Differs(f"{name}: {came!r} came, {wanted!r} is wanted")


class Library:
    """The calls, with what each handle holds freed where Python drops it."""

    def __init__(self, path):
        self.calls = ctypes.CDLL(path)

    def sized(self, given):
        return ctypes.c_char_p(given), ctypes.c_size_t(len(given))

    def freed(self, handle):
        self.calls.ix_free(ctypes.byref(handle))

    def filled(self, call, *words):
        """The status of a call that fills a handle, and the handle."""
        handle = Handle()
        return getattr(self.calls, call)(ctypes.byref(handle), *words), handle

    def store(self, car):
        return self.filled("ix_store_read_car", *self.sized(car))

    def job(self, line):
        return self.filled("ix_job_from_line", *self.sized(line))

    def job_of_parts(self, roots, selector, limit):
        return self.filled("ix_job_new", *self.sized(roots), *self.sized(selector), ctypes.c_uint32(limit))

    def add(self, store, cid, block):
        return self.calls.ix_store_add(ctypes.byref(store), *self.sized(cid), *self.sized(block))

    def export(self, store, job):
        out = Handle()
        expect("ix_export", self.calls.ix_export(ctypes.byref(store), ctypes.byref(job), ctypes.byref(out)), DONE)
        return out

    def bytes(self, call, handle):
        start, length = ctypes.c_void_p(), ctypes.c_size_t()
        expect(call, getattr(self.calls, call)(ctypes.byref(handle), ctypes.byref(start), ctypes.byref(length)), DONE)
        return ctypes.string_at(start, length.value)

    def text(self, handle):
        start, length = ctypes.c_void_p(), ctypes.c_size_t()
        status = self.calls.ix_bytes(ctypes.byref(handle), ctypes.c_uint32(2), ctypes.byref(start), ctypes.byref(length))
        expect("ix_bytes", status, DONE)
        return ctypes.string_at(start, length.value).decode()

    def counts(self, out):
        counts, end = Counts(), ctypes.c_uint32()
        expect("ix_result_counts", self.calls.ix_result_counts(ctypes.byref(out), ctypes.byref(counts)), DONE)
        expect("ix_result_end", self.calls.ix_result_end(ctypes.byref(out), ctypes.byref(end)), DONE)
        expect("the end by two calls", counts.end, end.value)
        return counts

    def skips(self, out):
        """The skips as lines of a report, up to the first number without one."""
        lines = []
        while True:
            skip, cid, length = Skip(), ctypes.c_void_p(), ctypes.c_size_t()
            status = self.calls.ix_result_skip(
                ctypes.byref(out), ctypes.c_size_t(len(lines)), ctypes.byref(skip), ctypes.byref(cid), ctypes.byref(length)
            )
            if status == RANGE:
                return lines
            expect("ix_result_skip", status, DONE)
            lines.append(f"  {skip.visit} {WHYS[skip.why]} {text_of(ctypes.string_at(cid, length.value))}")


def varint(data, at):
    value = shift = 0
    while True:
        byte = data[at]
        at += 1
        value |= (byte & 127) << shift
        shift += 7
        if byte < 128:
            return value, at


def cid_length(data):
    """The length of the CID at the front."""
    if data[:2] == b"\x12\x20":
        return 34
    at = 0
    for _ in range(4):
        length, at = varint(data, at)
    return at + length


def text_of(cid):
    """The text of a CID as the program has it."""
    if cid[:2] == b"\x12\x20":
        return "v0-" + cid.hex()
    return "b" + base64.b32encode(cid).decode().lower().rstrip("=")


def cid_of(text):
    return base64.b32decode(text[1:].upper() + "=" * (-(len(text) - 1) % 8))


def hexed(text):
    return b"" if text == "-" else bytes.fromhex(text)


def unescaped(text):
    known = {"n": b"\n", "r": b"\r", "t": b"\t"}
    parts = re.split(r"\\([nrt]|x[0-9a-fA-F]{2})", text)
    found = parts[0].encode()
    for escape, behind in zip(parts[1::2], parts[2::2]):
        found += known.get(escape) or bytes.fromhex(escape[1:])
        found += behind.encode()
    return found


def agrees(came, wanted):
    return came.startswith(wanted[:-2]) if wanted.endswith("..") else came == wanted


class Cases:
    def __init__(self, library):
        self.library = library
        self.names = {}
        self.cases = self.jobs = self.beginnings = 0
        self.added = []
        self.begin()

    def begin(self):
        """An example of which nothing is set up yet, once the blocks of the one before are added as its cases say."""
        if self.added:
            self.library.freed(self.opened(self.added))
            self.cases += len(self.added)
        self.sections, self.lines, self.report, self.archives, self.added = [], [], [], [], []

    def expanded(self, text):
        def one(match):
            part = match[1]
            if part in self.names:
                return self.names[part]
            name, mark, count = re.fullmatch(r"(.*)([*#])(\d+)", part).groups()
            if mark == "*":
                return self.names.get(name, name) * int(count)
            return "".join(self.names[name].replace("#", str(number)) for number in range(int(count)))

        return re.sub(r"<([^<>]+)>", one, text)

    def line(self, line):
        word, _, rest = line.partition(" ")
        if not line or word.startswith("#"):
            return
        if word == "example":
            return self.begin()
        if word == "let":
            name, _, text = rest.partition(" ")
            self.names[name] = self.expanded(text)
            return
        act = getattr(self, f"on_{word}", None)
        if act is None:
            return
        rest = self.expanded(rest)
        if word in ("section", "job", "report", "archive"):
            act(rest)
        elif rest.startswith("= "):
            act("", rest[2:])
        else:
            given, _, wanted = rest.partition(" = ")
            act(given, wanted)

    # What sets up an example.

    def on_section(self, section):
        self.sections.append(section)

    def on_job(self, line):
        self.lines.append(line)

    def on_report(self, line):
        self.report.append(line)

    def on_archive(self, rest):
        header, *numbers = rest.split(" ")
        self.archives.append(hexed(header + "".join(self.sections[int(number)] for number in numbers)))

    # Cases.

    def on_add(self, given, wanted):
        """A block that goes into the store of the example, of which the verdicts behind are."""
        cid, _, block = given.partition(" ")
        self.added.append((hexed(cid), hexed(block), {"true": DONE, "false": KNOWN}[wanted]))

    on_add_copy = on_add

    def on_cid(self, given, wanted):
        """A CID under which a block is added, or bytes that are none and no root either, or have more behind them."""
        given, words = hexed(given), wanted.split(" ")
        is_one = len(words) == 5
        self.library.freed(self.opened([(given, b"", DONE if is_one and int(words[4]) == len(given) else NO_CID)]))
        if not is_one and given:
            status, job = self.library.job_of_parts(given, MATCHER, 1)
            self.refused(status, job, f"root: {wanted}")
            self.library.freed(job)
        self.cases += 1

    def on_verdict(self, given, wanted):
        store = self.opened(self.added)
        lines = self.of_root(store, hexed(given))[1]
        self.library.freed(store)
        expect("why the root is skipped", [line.split()[1] for line in lines], [wanted] if wanted in WHYS else [])
        self.cases += 1

    def on_root(self, given, wanted):
        """The archive of one root: that of the job with the matcher and a limit of one visit."""
        car, _, root = given.partition(" ")
        status, store = self.library.store(hexed(car))
        if status == DONE:
            self.freeze(store)
            expect("the archive of a root", self.of_root(store, hexed(root))[0].hex(), wanted)
        else:
            self.refused(status, store, wanted)
        self.library.freed(store)
        self.cases += 1

    def on_prepare(self, given, wanted):
        """A file of blocks that is refused, or a job file of one job or of a fault."""
        car, _, text = given.partition(" ")
        status, store = self.library.store(hexed(car))
        if wanted.startswith("blocks: "):
            self.refused(status, store, wanted)
        else:
            expect("ix_store_read_car", status, DONE)
            self.of_file(unescaped(text), wanted.partition(", ")[2] or wanted.removeprefix("jobs: "))
        self.library.freed(store)
        self.cases += 1

    def on_jobs(self, given, wanted):
        self.of_file(unescaped(given), wanted)
        self.cases += 1

    def on_notation(self, given, wanted):
        status, text = self.library.filled("ix_selector_from_json", *self.library.sized(unescaped(given)))
        expect("the status of a JSON text", status, DONE if hex_only(wanted) else REFUSED)
        expect("what a JSON text gives", agrees(self.library.text(text), wanted), True)
        self.library.freed(text)
        self.cases += 1

    def on_run(self, _, wanted):
        car = hexed(HEADER + "".join(self.sections))
        status, store = self.library.store(car)
        if wanted.startswith("blocks: "):
            self.refused(status, store, wanted)
        elif wanted.startswith("jobs: "):
            self.of_file("\n".join(self.lines).encode(), wanted.removeprefix("jobs: "))
        else:
            expect("ix_store_read_car", status, DONE)
            self.freeze(store)
            other = self.opened(self.blocks())
            self.of_jobs(store, other)
            self.library.freed(other)
        self.library.freed(store)
        self.cases += 1

    # What cases are made of.

    def refused(self, status, handle, wanted):
        expect("the status of what is refused", status, REFUSED)
        expect("the line of a refusal", self.library.bytes("ix_fault_line", handle).decode(), wanted)

    def freeze(self, store):
        expect("ix_store_freeze", self.library.calls.ix_store_freeze(ctypes.byref(store)), DONE)

    def opened(self, blocks):
        """The frozen store of blocks that are added one by one, each with the status that is wanted."""
        status, store = self.library.filled("ix_store_new")
        expect("ix_store_new", status, DONE)
        for cid, block, wanted in blocks:
            expect("ix_store_add", self.library.add(store, cid, block), wanted)
        self.freeze(store)
        return store

    def blocks(self):
        """The blocks of the example's sections."""
        known = set()
        for section in map(hexed, self.sections):
            length, at = varint(section, 0)
            data = section[at:]
            expect("the length of a section", len(data), length)
            cid = data[: cid_length(data)]
            yield cid, data[len(cid) :], KNOWN if cid in known else DONE
            known.add(cid)

    def of_root(self, store, root):
        """The archive and the skips of the job with this root, the matcher and a limit of one visit."""
        status, job = self.library.job_of_parts(root, MATCHER, 1)
        expect("ix_job_new", status, DONE)
        out = self.library.export(store, job)
        found = self.library.bytes("ix_result_archive", out), self.library.skips(out)
        self.library.freed(job)
        self.library.freed(out)
        return found

    def of_file(self, text, wanted):
        """A job file, which the library takes where it has one job."""
        status, job = self.library.job(text)
        if wanted.startswith("1 jobs"):
            expect("the status of one job", status, DONE)
        else:
            count = re.match(r"\d+ jobs", wanted)
            self.refused(status, job, "jobs: not one job" if count else f"jobs: {wanted}")
        self.library.freed(job)

    def of_jobs(self, store, other):
        """The jobs of a run, whose report tells of each, but in its last line, or of none where a header wasn't written."""
        told = {}
        for line in self.report[:-1]:
            if not line.startswith(" "):
                lines = told.setdefault(line.split(" ")[0], [])
            lines.append(line)
        for number, line in enumerate(self.lines):
            name, roots, limit, selector = line.split(" ")
            wanted = Wanted(told.get(name), self.archives[number] if self.archives else b"")
            self.beginnings += wanted.is_beginning
            status, job = self.library.job(line.encode())
            expect("ix_job_from_line", status, DONE)
            roots = b"".join(map(cid_of, roots.split(",")))
            status, same = self.library.job_of_parts(roots, bytes.fromhex(selector), int(limit))
            expect("ix_job_new", status, DONE)
            for blocks in store, other:
                self.compare(blocks, job, name, wanted)
                self.compare(blocks, same, "job", wanted)
            self.compare_once(store, job)
            self.library.freed(job)
            self.library.freed(same)
            self.jobs += 1

    def compare(self, store, job, name, wanted):
        out = self.library.export(store, job)
        archive = self.library.bytes("ix_result_archive", out)
        if wanted.is_beginning:
            expect("what the archive begins with", archive[: len(wanted.archive)].hex(), wanted.archive.hex())
        else:
            counts = self.library.counts(out)
            expect("the archive", archive.hex(), wanted.archive.hex())
            expect("the report", self.library.bytes("ix_result_report", out).decode(), wanted.report_of(name))
            expect("the counts", {it: getattr(counts, it) for it in wanted.counts}, wanted.counts)
            expect("the skips", self.library.skips(out), wanted.skips)
        self.library.freed(out)

    def compare_once(self, store, job):
        """The job at every arrival and once: within the limit both have the same archive."""
        found = []
        for _ in range(2):
            out = self.library.export(store, job)
            counts = self.library.counts(out)
            found.append((counts.end, counts.visits, self.library.bytes("ix_result_archive", out)))
            self.library.freed(out)
            expect("ix_job_once", self.library.calls.ix_job_once(ctypes.byref(job)), DONE)
        (end, visits, archive), (end_once, visits_once, archive_once) = found
        if end == 0:
            expect("the end of a job once", (end_once, visits_once <= visits), (0, True))
            expect("the archive of a job once", archive_once.hex(), archive.hex())


class Wanted:
    """What is wanted of a job, from its lines in the report of the run and its archive."""

    def __init__(self, lines, archive):
        self.archive = archive
        end, words = "write", {}
        if lines:
            _, end, *words = lines[0].split(" ")
            words = {name: int(number) for name, number in (word.split("=") for word in words)}
        self.is_beginning = end == "write"
        self.skips = lines[1:] if lines else []
        self.counts = {"end": ENDS.index(end), **words, "skips": len(self.skips)}
        self.first = lines[0].partition(" ")[2] if lines else ""

    def report_of(self, name):
        done = int(self.counts["end"] == 0)
        return "\n".join([f"{name} {self.first}", *self.skips, f"total jobs=1 done={done} skips={len(self.skips)}", ""])


def hex_only(text):
    return bool(re.fullmatch(r"([0-9a-f]{2})+(\.\.)?", text))


def main(path):
    cases = Cases(Library(path))
    for name in (CRATE / "args").read_text().split():
        for number, line in enumerate((CRATE / "data" / name).read_text().split("\n"), 1):
            try:
                cases.line(line)
            except Differs as differs:
                sys.exit(f"tests/embed/cases.py: FAILED: {name}:{number}: {differs}")
        cases.begin()
    if cases.cases < 300 or cases.jobs < 300:
        sys.exit(f"tests/embed/cases.py: FAILED: only {cases.cases} cases and {cases.jobs} jobs")
    print(f"{cases.cases} cases with {cases.jobs} jobs, {cases.beginnings} of them cut off by their writers")


if __name__ == "__main__":
    main(*sys.argv[1:])
