#!/usr/bin/env python3
"""Runs the built program while calls on its files fail, while it is killed, and ten at once: no file is ever other than whole.

Each call on an output fails once in turn, by `get`, `receive` and `jobs`, and each is once the last before the program is killed. A
file under a final name then has its old bytes or those of the whole archive, and a run that is rejected leaves no part that it
made. Ten runs at once write the same outputs, each call late by chance. Then: a large file that several threads read and that
can't be read, or becomes shorter; errors of fsync, file systems without locks, and
those where only a file that is open for writing can be locked. The library that does this is made by the toolchain's own
compiler; without one this says so and ends well. Ends with status 1 at the first run that is wrong.
"""

import argparse
import base64
import hashlib
import json
import os
import pathlib
import shutil
import subprocess
import sys
import tempfile

TOP = pathlib.Path(__file__).resolve().parent.parent
ROOT = "bafyreigiavswv62tcfji62na4ecatawlzg33sy6uezl5lj3g56mxdhbnmq"
NAMES = ("album", "first-three", "front", "parts", "whole")
OLD = b"the archive of before"
THREADS = ("--walkers", "1", "--verifiers", "1")
# The commands that write one archive.
OF_ONE = ("get", "receive")
IO, NO_SPACE, NOT_PERMITTED = 5, 28, 1
NO_LOCKS = (37, 38, 95)
CALLS = ("open", "write", "flock", "fsync", "fchmod", "rename", "unlink")


class Wrong(Exception):
    pass


def wanted(name):
    return (TOP / f"examples/expected/{name}.car").read_bytes()


class Runner:
    def __init__(self, room, library, program, rounds):
        self.room, self.library, self.program, self.rounds, self.runs = room, library, program, rounds, 0
        self.out = room / "out"

    def words(self, command):
        blocks = ["--blocks", str(TOP / "examples/library.car")]
        name, *options = command.split()
        if name == "receive":
            stream = ["--root", ROOT, "--allow-missing", "raw", str(TOP / "examples/expected/whole.car")]
            return ["receive", *stream, "--out", str(self.out / "whole.car"), *options]
        if name == "get":
            return ["get", *blocks, "--root", ROOT, "--out", str(self.out / "whole.car"), *THREADS, *options]
        jobs = ["--jobs", str(TOP / "examples/library.jobs"), "--out", str(self.out)]
        return ["jobs", *blocks, *jobs, *THREADS, *options]

    def names(self, command):
        return ("whole",) if command.split()[0] in OF_ONE else NAMES

    def clear(self, command, stale):
        """An output folder with the archives of before, and with parts that a killed run left where that is wanted."""
        shutil.rmtree(self.out, ignore_errors=True)
        self.out.mkdir()
        for name in self.names(command):
            (self.out / f"{name}.car").write_bytes(OLD)
            if stale:
                (self.out / f"{name}.car.part").write_bytes(b"left")

    def start(self, command, **shim):
        environment = {"LD_PRELOAD": str(self.library), **{key: str(value) for key, value in shim.items()}}
        self.runs += 1
        words = [self.program, *self.words(command)]
        return subprocess.Popen(words, env=environment, stdout=subprocess.PIPE, stderr=subprocess.PIPE)

    def run(self, command, **shim):
        started = self.start(command, **shim)
        output, errors = started.communicate(timeout=60)
        return started.returncode, output.decode(), errors.decode()

    def counts(self, command, stale=True):
        """How many calls of each name a run makes."""
        counts = self.room / "counts"
        self.clear(command, stale)
        self.run(command, COUNTS=counts)
        return {name: int(calls) for name, calls in map(str.split, counts.read_text().splitlines())}

    def expect_whole(self, command, what):
        """Under each final name is the archive of before or the whole new one; answered is how many are new."""
        new = 0
        for name in self.names(command):
            came = (self.out / f"{name}.car").read_bytes()
            if came not in (OLD, wanted(name)):
                raise Wrong(f"{what}: {name}.car has {len(came)} bytes")
            new += came != OLD
        return new

    def parts(self):
        return sorted(file.name for file in self.out.iterdir() if file.name.endswith(".part"))


def large_files(runner):
    """A file that several threads read: a read that fails once is made again; if it fails again, or the file has become
    shorter, the line says so; and what it has beyond its size at first isn't read."""
    abc = b"abc"
    cid = bytes.fromhex("01551220") + hashlib.sha256(abc).digest()
    root = "b" + base64.b32encode(cid).decode().lower().rstrip("=")
    header = bytes.fromhex("11a265726f6f7473806776657273696f6e01")
    # A raw block of 70 MiB, which takes no room on the disk, and one of three bytes.
    size, large = 70 << 20, bytes.fromhex("01551220") + bytes(32)
    length, varint = size + len(large), b""
    while length >= 128:
        length, varint = length >> 7, varint + bytes([length & 127 | 128])
    blocks = runner.room / "large.car"
    with open(blocks, "wb") as file:
        file.write(header + varint + bytes([length]) + large)
        file.seek(size, os.SEEK_CUR)
        file.write(bytes([len(cid) + len(abc)]) + cid + abc)
    wanted = None
    read_again = {f"pread:{number}:{IO}": None for number in range(1, 9)}
    for fail, why in {
        "": None,
        **read_again,
        f"pread:0:{IO}": "Input/output error (os error 5)",
        "pread:0:0": "it became shorter while it was read",
    }.items():
        runner.runs += 1
        words = [runner.program, "get", "--blocks", blocks, "--root", root]
        environment = {"LD_PRELOAD": str(runner.library), "FAIL": fail}
        done = subprocess.run(words, env=environment, capture_output=True, timeout=60)
        errors = done.stderr.decode()
        if why is None:
            wanted = wanted or done.stdout
            if done.returncode != 0 or done.stdout != wanted or not wanted.endswith(cid + abc):
                raise Wrong(f"a large file, {fail or 'no failure'}: status {done.returncode}: {errors}")
        elif done.returncode != 2 or done.stdout or errors != f"cannot read {blocks}: {why}\n":
            raise Wrong(f"a large file, {fail}: status {done.returncode}: {errors}")


def failing_calls(runner):
    """Each call fails once, with stale parts and without."""
    for command in ("get", "receive", "jobs", "jobs --sync"):
        counts = runner.counts(command)
        for name in CALLS:
            for number in range(1, counts[name] + 1):
                for stale in (False, True):
                    what = f"{command}, {name} number {number} fails, stale {stale}"
                    runner.clear(command, stale)
                    status, output, errors = runner.run(command, FAIL=f"{name}:{number}:{IO}")
                    if status not in (0, 2, 3, 4):
                        raise Wrong(f"{what}: status {status}: {errors}")
                    new = runner.expect_whole(command, what)
                    # A write that fails ends its job alone; so does a sync.
                    if status == 2 and command not in OF_ONE and len(errors.splitlines()) != 1:
                        raise Wrong(f"{what}: more than one line: {errors}")
                    if status == 2 and not output and not new and not stale and name != "unlink" and runner.parts():
                        if command not in OF_ONE or name != "rename":
                            raise Wrong(f"{what}: left {runner.parts()}")


def killed(runner):
    """The program is killed before each of its calls, and the next run is right."""
    for command in ("get", "get --prefetch on", "receive", "jobs", "jobs --sync", "jobs --prefetch on"):
        total = sum(runner.counts(command, False).values())
        for number in range(1, total + 1):
            what = f"{command}, killed at call {number}"
            runner.clear(command, False)
            status, _, errors = runner.run(command, KILL=number)
            if status != -9:
                raise Wrong(f"{what}: status {status}: {errors}")
            runner.expect_whole(command, what)
            status, _, errors = runner.run(command)
            if status not in (0, 3, 4) or runner.expect_whole(command, what) != len(runner.names(command)):
                raise Wrong(f"{what}: the next run has status {status}: {errors}")
            if runner.parts():
                raise Wrong(f"{what}: the next run left {runner.parts()}")


def ten_at_once(runner):
    """Ten runs write the same outputs: what is named is whole, and a run that isn't rejected has named all of its own."""
    for command in ("get", "jobs"):
        for turn in range(runner.rounds):
            what = f"{command}, ten at once, turn {turn}"
            runner.clear(command, turn % 2 == 0)
            runs = [runner.start(command, LATE=turn * 10 + number + 1) for number in range(10)]
            done = 0
            for started in runs:
                output, errors = started.communicate(timeout=120)
                if started.returncode not in (2, 3, 4):
                    raise Wrong(f"{what}: status {started.returncode}: {errors.decode()}")
                done += started.returncode != 2
                # A run whose outputs were made may lose none of them to another.
                if started.returncode == 2 and output:
                    raise Wrong(f"{what}: an output was lost: {errors.decode()}")
            new = runner.expect_whole(command, what)
            if done and new != len(runner.names(command)):
                raise Wrong(f"{what}: {done} runs were done, and {new} archives are new")


def syncs(runner):
    """An archive that can't be put on the disk gets no name, and its job ends with write."""
    runner.clear("get", False)
    status, _, errors = runner.run("get", FAIL=f"fsync:1:{NO_SPACE}")
    lines = errors.splitlines()
    path = runner.out / "whole.car"
    if status != 4 or lines[0] != f"left {path}.part: its job ended with write; 2 links were skipped":
        raise Wrong(f"get, fsync fails: status {status}: {errors}")
    if lines[1] != f"cannot write {path}: No space left on device (os error 28)" or path.read_bytes() != OLD:
        raise Wrong(f"get, fsync fails: {errors}")
    if not lines[2].startswith("get write "):
        raise Wrong(f"get, fsync fails: the report is {lines[2]}")
    runner.clear("receive", False)
    status, _, errors = runner.run("receive", FAIL=f"fsync:1:{NO_SPACE}")
    if (status, errors) != (4, f"cannot write {path}: No space left on device (os error 28)\n") or path.read_bytes() != OLD:
        raise Wrong(f"receive, fsync fails: status {status}: {errors}")
    runner.clear("jobs", False)
    status, output, errors = runner.run("jobs --sync", FAIL=f"fsync:2:{NO_SPACE}")
    ends = {line.split()[0]: line.split()[1] for line in output.splitlines() if line[0] != " "}
    if status != 4 or ends["album"] != "write" or ends["whole"] != "done" or (runner.out / "album.car").read_bytes() != OLD:
        raise Wrong(f"jobs --sync, fsync fails: status {status}: {output}{errors}")
    if (runner.out / "whole.car").read_bytes() != wanted("whole"):
        raise Wrong("jobs --sync, fsync fails: another job's archive is not whole")
    for command, calls in (("get", 1), ("receive", 1), ("receive --no-sync", 0), ("jobs", 0), ("jobs --sync", len(NAMES))):
        if runner.counts(command)["fsync"] != calls:
            raise Wrong(f"{command}: {runner.counts(command)['fsync']} calls of fsync")


def failed_names(runner):
    """Where an archive can't get its name, the JSON of `jobs` and of `get` names the part, which is left and whole. The job of
    `jobs` ends with write, and the others have their names."""
    ends = {"jobs --json": ("write", 4), "jobs --sync --json": ("write", 4), "get --json": ("done", 2)}
    for command, wanted_end in ends.items():
        runner.clear(command, False)
        answers = runner.run(command, FAIL=f"rename:1:{IO}")
        objects = [json.loads(line) for line in (answers[1] + answers[2]).splitlines() if line.startswith("{")]
        errors = [found["error"] for found in objects if "error" in found]
        objects = [found for found in objects if "error" not in found]
        left = [found for found in objects if "part" in found]
        named = [found["file"] for found in objects if "file" in found]
        what = f"{command}, a rename fails: status {answers[0]}: {answers[1]}{answers[2]}"
        if len(left) != 1 or len(named) != len(runner.names(command)) - 1 or "total" not in objects[-1]:
            raise Wrong(what)
        if errors != (["write"] if command == "get --json" else []):
            raise Wrong(what)
        part = pathlib.Path(left[0]["part"])
        if left[0]["part_bytes"] != part.stat().st_size:
            raise Wrong(what)
        path = part.with_suffix("")
        if (left[0]["end"], answers[0]) != wanted_end or part.read_bytes() != wanted(path.stem) or path.read_bytes() != OLD:
            raise Wrong(what)
        if command != "get --json" and answers[2].splitlines()[-1] != f"cannot write {path}: Input/output error (os error {IO})":
            raise Wrong(what)
        for name in named:
            if pathlib.Path(name).read_bytes() != wanted(pathlib.Path(name).stem):
                raise Wrong(f"{what}: {name} is not whole")


def locks(runner):
    """Runs go on where there are no locks, and stop where a lock fails."""
    for command in ("get", "jobs"):
        for code in NO_LOCKS:
            for stale in (False, True):
                runner.clear(command, stale)
                status, _, errors = runner.run(command, FAIL=f"flock:0:{code}")
                new = runner.expect_whole(command, "without locks")
                if status not in (3, 4) or new != len(runner.names(command)) or runner.parts():
                    raise Wrong(f"{command}, no locks ({code}), stale {stale}: status {status}: {errors}")
        runner.clear(command, False)
        status, _, errors = runner.run(command, FAIL=f"flock:0:{IO}")
        if status != 2 or runner.parts():
            raise Wrong(f"{command}, locks fail: status {status}, left {runner.parts()}: {errors}")
        runner.clear(command, True)
        status, _, errors = runner.run(command, NFS=1)
        if status not in (3, 4) or runner.expect_whole(command, "over NFS") != len(runner.names(command)) or runner.parts():
            raise Wrong(f"{command}, over NFS, stale: status {status}: {errors}")
    path = runner.out / "whole.car"
    runner.clear("get", False)
    # More bits than the mask leaves a new file.
    path.chmod(0o777)
    status, _, errors = runner.run("get", FAIL=f"fchmod:1:{NOT_PERMITTED}")
    if status != 2 or "(os error 1)" not in errors or path.read_bytes() != OLD:
        raise Wrong(f"get, permission bits can't be kept: status {status}: {errors}")


def main():
    parser = argparse.ArgumentParser(description=__doc__)
    parser.add_argument("--part", help="runs this part alone")
    parser.add_argument("--rounds", type=int, default=25, help="how many times ten runs are started at once, of each command")
    words = parser.parse_args()
    toolchain = pathlib.Path(os.path.realpath(shutil.which("rt") or "rt")).parent.parent
    program = subprocess.run([TOP / "ix_export", "--where"], check=True, capture_output=True, text=True).stdout.strip()
    with tempfile.TemporaryDirectory(prefix="files-") as room:
        room = pathlib.Path(room)
        library = room / "fail.so"
        make = [toolchain / "toolchain/bin/clang", "-shared", "-fPIC", "-O1", "-nostdlib", "-fuse-ld=lld"]
        try:
            subprocess.run([*make, TOP / "tests/files/fail.c", "-o", library], check=True, capture_output=True)
        except (OSError, subprocess.CalledProcessError):
            print("tests/files.py: no compiler makes the library that fails: no run")
            return 0
        runner = Runner(room, library, program, words.rounds)
        for part in (syncs, failed_names, locks, large_files, failing_calls, killed, ten_at_once):
            if words.part not in (None, part.__name__):
                continue
            try:
                part(runner)
            except Wrong as wrong:
                print(f"tests/files.py: FAILED: {wrong}", file=sys.stderr)
                return 1
    print(f"tests/files.py: {runner.runs} runs passed")
    return 0


if __name__ == "__main__":
    sys.exit(main())
