#!/usr/bin/env python3
"""Runs the program on each workload at a size and at twice the size, and prints a table.

What the columns mean stands in bench/README.md.
"""

import argparse
import os
import pathlib
import re
import shutil
import subprocess
import sys
import tempfile
import time

TOP = pathlib.Path(__file__).resolve().parent.parent
PROGRAM = subprocess.run([TOP / "ix_export", "--where"], stdout=subprocess.PIPE, check=True, text=True).stdout.strip()
SIZES = {
    "leaves": 1_000,
    "sha512": 1_000,
    "small": 200_000,
    "parts": 200_000,
    "deep": 200_000,
    "inline": 200_000,
    "shared": 10_000,
    "ways": 10_000,
    "nested": 220_000,
    "hostile": 16_000,
    "random-cids": 200_000,
    "prefix-cids": 200_000,
    "bucket-cids": 200_000,
}
# Those whose jobs go into a CID once.
ONCE = {"ways"}
MIB = 1 << 20
THREADS = (1, 2, 4)
ROW = "| {:11} | {:>7} | {:>7} | {:>7} |" + 9 * " {:>5} |" + " {:>8} | {:>6} | {:>9} | {:>6} |"


def stay():
    """Keeps a program, before it begins, on the first of its processors."""
    os.sched_setaffinity(0, {min(os.sched_getaffinity(0))})


def run_once(words, answer, alone=False):
    """The seconds and the peak memory in bytes of one run, whose standard output goes to a file; where it is
    alone, on one processor."""
    with open(answer, "wb") as file:
        begin = time.monotonic()
        child = subprocess.Popen(words, stdout=file, preexec_fn=stay if alone else None)
        _, status, used = os.wait4(child.pid, 0)
        seconds = time.monotonic() - begin
    child.returncode = os.waitstatus_to_exitcode(status)
    if child.returncode != 0:
        raise SystemExit(f"status {child.returncode} of {' '.join(map(str, words))}")
    return seconds, used.ru_maxrss * 1024


def export(room, jobs, threads, once, alone=False):
    """One run of the program into a fresh output folder, with so many walkers and verifiers; where it is
    alone, on one processor."""
    out = room / "out"
    out.mkdir()
    words = [PROGRAM, "jobs", "--blocks", room / "blocks.car", "--jobs", room / jobs, "--out", out]
    words += ["--walkers", str(threads), "--verifiers", str(threads)] + ["--once"] * once
    measured = run_once(words, room / "report.txt", alone)
    shutil.rmtree(out)
    return measured


class Bench:
    """A workload at a size, in a folder of its own, and the best of its runs so far."""

    def __init__(self, workload, size, seed, room):
        self.workload, self.size, self.room = workload, size, room
        self.seconds = dict.fromkeys(THREADS, float("inf"))
        self.alone = dict.fromkeys(THREADS, float("inf"))
        self.loading = self.hashing = float("inf")
        self.memory = 0
        words = [sys.executable, TOP / "bench/generate.py", workload, str(size), room, "--seed", str(seed)]
        subprocess.run(words, check=True)
        (room / "none.txt").write_text("")

    def run(self):
        """Runs the program without a job and with each number of threads, and sha256sum over the same blocks."""
        once = self.workload in ONCE
        loading, _ = export(self.room, "none.txt", 1, once)
        self.loading = min(self.loading, loading)
        hashing, _ = run_once(["sha256sum", self.room / "blocks.car"], self.room / "digest.txt")
        self.hashing = min(self.hashing, hashing)
        for threads in THREADS:
            seconds, memory = export(self.room, "jobs.txt", threads, once)
            self.seconds[threads] = min(self.seconds[threads], seconds)
            self.memory = max(self.memory, memory)
        for threads in (THREADS[0], THREADS[-1]):
            seconds, _ = export(self.room, "jobs.txt", threads, once, alone=True)
            self.alone[threads] = min(self.alone[threads], seconds)

    def gain(self, threads):
        """How many times as fast the work behind loading is as with one of each on one processor."""
        return (self.alone[1] - self.loading) / (self.seconds[threads] - self.loading)

    def print_row(self, factor):
        size = (self.room / "blocks.car").stat().st_size
        report = (self.room / "report.txt").read_text()
        visits = sum(map(int, re.findall(r" visits=(\d+)", report)))
        row = ROW.format(
            self.workload,
            self.size,
            f"{size / MIB:.1f}",
            visits,
            f"{self.loading:.2f}",
            f"{self.alone[THREADS[0]]:.2f}",
            *(f"{self.seconds[threads]:.2f}" for threads in THREADS),
            f"{self.alone[THREADS[-1]]:.2f}",
            *(f"{self.gain(threads):.2f}" for threads in THREADS),
            round(visits / self.seconds[THREADS[-1]]),
            f"{self.memory / MIB:.0f}",
            f"{self.seconds[1] / self.hashing:.1f}",
            factor,
        )
        print(row, flush=True)


def run_workload(workload, size, seed, runs, room):
    """The two sizes run in turn, so that other work on the machine falls on both."""
    once = Bench(workload, size, seed, room / "once")
    twice = Bench(workload, 2 * size, seed, room / "twice")
    for _ in range(runs):
        once.run()
        twice.run()
    once.print_row("")
    twice.print_row(f"{twice.seconds[1] / once.seconds[1]:.2f}")


def main():
    parser = argparse.ArgumentParser(description=__doc__)
    parser.add_argument("workloads", nargs="*", help="those of bench/generate.py; all where none is given")
    parser.add_argument("--size", type=int, help="in place of the size that a workload has here")
    parser.add_argument("--runs", type=int, default=5, help="of how many runs the best counts")
    parser.add_argument("--seed", type=int, default=1)
    words = parser.parse_args()
    unknown = set(words.workloads) - set(SIZES)
    if unknown:
        parser.error(f"no workload: {' '.join(sorted(unknown))}")
    times = [f"{threads}+{threads}" for threads in THREADS]
    gains = [f"x{threads}" for threads in THREADS]
    head = ("workload", "size", "MiB", "visits", "load", "one", *times, "crowd", *gains, "visits/s", "peak", "sha256sum", "factor")
    print(ROW.format(*head))
    print("|---" * len(head) + "|")
    for workload in words.workloads or SIZES:
        with tempfile.TemporaryDirectory(prefix="bench-") as room:
            run_workload(workload, words.size or SIZES[workload], words.seed, words.runs, pathlib.Path(room))


if __name__ == "__main__":
    main()
