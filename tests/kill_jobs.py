#!/usr/bin/env python3
"""Runs `jobs` over many archives and kills it at a random moment, or once it has given some names, a hundred times: under a final name is only ever a whole
archive, with the bytes of a run that wasn't disturbed, and `--resume` leaves those out and writes all others. Every second run
has --sync, and every third is killed twice. Ends with status 1 at the first run that is wrong."""

import argparse
import hashlib
import os
import pathlib
import random
import re
import subprocess
import sys
import tempfile
import time

TESTS = pathlib.Path(__file__).resolve().parent
sys.path[:0] = [str(TESTS)]
sys.dont_write_bytecode = True
from hostile import ALL, DAG_CBOR, NO_ROOTS, PROGRAM, RAW, SHA2_256, Wrong, cid_of, link, list_of, section, text

LEAVES, LEAF = 12, 3_000
NOTE = re.compile(r"note: (\d+) jobs? (?:was|were) left out: (?:its archive is|their archives are) there\n")


def key_of(codec, block):
    return cid_of(codec, SHA2_256, hashlib.sha256(block).digest())


def write_inputs(room, jobs, chance):
    """A file of blocks and a job file: each job has a list of leaves of its own."""
    with open(room / "blocks.car", "wb") as blocks, open(room / "jobs.txt", "w") as lines:
        blocks.write(NO_ROOTS)
        for job in range(jobs):
            keys = []
            for _ in range(chance.randint(1, LEAVES)):
                leaf = chance.randbytes(chance.randint(1, LEAF))
                keys.append(key_of(RAW, leaf))
                blocks.write(section(keys[-1], leaf))
            root = list_of([link(key) for key in keys])
            blocks.write(section(key_of(DAG_CBOR, root), root))
            lines.write(f"job-{job} {text(key_of(DAG_CBOR, root))} 1000 {ALL}\n")


class Runner:
    def __init__(self, room, jobs):
        self.room, self.out, self.jobs, self.whole = room, room / "out", jobs, {}

    def words(self, *options):
        files = ["--blocks", self.room / "blocks.car", "--jobs", self.room / "jobs.txt"]
        return [PROGRAM, "jobs", *files, "--out", self.out, *options]

    def clear(self):
        self.out.mkdir(exist_ok=True)
        for file in self.out.iterdir():
            file.unlink()

    def run(self, *options):
        return subprocess.run(self.words(*options), capture_output=True, text=True, timeout=60)

    def undisturbed(self):
        """How long a run takes; its archives are those that are wanted."""
        self.clear()
        began = time.monotonic()
        done = self.run()
        took = time.monotonic() - began
        if done.returncode != 0 or done.stderr:
            raise Wrong(f"a run that isn't disturbed: status {done.returncode}: {done.stderr}")
        self.whole = {file.name: file.read_bytes() for file in self.out.iterdir()}
        if len(self.whole) != self.jobs:
            raise Wrong(f"a run that isn't disturbed: {len(self.whole)} archives")
        return took

    def kill(self, moment, names, *options):
        """Kills a run at a moment, or once it has given so many more names, and returns how many archives have theirs, and
        whether it was still running."""
        running = subprocess.Popen(self.words(*options), stdout=subprocess.DEVNULL, stderr=subprocess.DEVNULL)
        if moment is None:
            names += self.count()
            while running.poll() is None and self.count() < names:
                pass
        else:
            time.sleep(moment)
        running.kill()
        was_running = running.wait() == -9
        return self.named(f"killed after {moment} s or {names} names"), was_running

    def count(self):
        return sum(name.endswith(".car") for name in os.listdir(self.out))

    def named(self, what):
        """How many archives have their names. Each is whole."""
        count = 0
        for file in self.out.iterdir():
            if file.name.endswith(".part"):
                continue
            if file.read_bytes() != self.whole.get(file.name):
                raise Wrong(f"{what}: {file.name} isn't whole")
            count += 1
        return count

    def resume(self, there, *options):
        done = self.run("--resume", *options)
        left = self.jobs - there
        if done.returncode != 0 or done.stdout.splitlines()[-1:] != [f"total jobs={left} done={left} skips=0"]:
            raise Wrong(f"--resume beside {there} archives: status {done.returncode}: {done.stdout[-200:]}{done.stderr}")
        note = NOTE.fullmatch(done.stderr)
        if (int(note[1]) if note else 0) != there or (done.stderr and not note):
            raise Wrong(f"--resume beside {there} archives: {done.stderr}")
        if sorted(file.name for file in self.out.iterdir()) != sorted(self.whole) or self.named("--resume") != self.jobs:
            raise Wrong(f"--resume beside {there} archives: the folder isn't complete")


def main():
    parser = argparse.ArgumentParser(description=__doc__)
    parser.add_argument("--runs", type=int, default=100, help="how many runs are killed")
    parser.add_argument("--jobs", type=int, default=300, help="how many archives a run writes, at most 1000")
    parser.add_argument("--seed", type=int, default=1, help="takes other blocks and moments")
    words = parser.parse_args()
    chance = random.Random(words.seed)
    between = killed = 0
    with tempfile.TemporaryDirectory(prefix="kill-jobs-") as room:
        runner = Runner(pathlib.Path(room), words.jobs)
        try:
            write_inputs(runner.room, words.jobs, chance)
            took = runner.undisturbed()

            def when():
                """A moment of a run, or a number of names."""
                return (chance.uniform(0, took), 0) if chance.random() < 0.3 else (None, chance.randint(1, words.jobs))

            for turn in range(words.runs):
                runner.clear()
                options = ("--sync",) if turn % 2 else ()
                there, was_running = runner.kill(*when(), *options)
                if turn % 3 == 0:
                    there, _ = runner.kill(*when(), "--resume", *options)
                killed += was_running
                between += 0 < there < words.jobs
                runner.resume(there, *options)
        except Wrong as wrong:
            print(f"tests/kill_jobs.py: FAILED: {wrong}", file=sys.stderr)
            return 1
    print(f"tests/kill_jobs.py: {killed} of {words.runs} runs killed, {between} with some archives named: all passed")
    return 0


if __name__ == "__main__":
    sys.exit(main())
