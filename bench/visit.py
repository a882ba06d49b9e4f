#!/usr/bin/env python3
"""What a visit costs in each part of the pipeline: microseconds of processor time for each visit of the
workload `small`, by `perf record` over one run. It needs perf, a machine that nothing else uses, and the program with its
symbols, as `./ix_export --prove` leaves it behind a build.
"""

import argparse
import collections
import pathlib
import re
import subprocess
import sys
import tempfile

TOP = pathlib.Path(__file__).resolve().parent.parent
PROGRAM = TOP / "crates/ix_export/out/ix_export"
FREQUENCY = 8_000
# The first part whose word is in a symbol counts; what no part names is `other`. What a verifier's thread and the
# collector do is inlined into the body of the thread and into that of the run.
PARTS = {
    "queue: put": r"try_put|push_as",
    "queue: take, lane: send": r"scope::entry|pop_as|try_send",
    "lane: receive": r"run_by|try_recv|collector|job_progress|ix_pipeline.*ring",
    "write": r"ix_car|ix_sections",
    "check": r"ix_check|ix_verdict|sha2|compress",
    "walk": r"ix_walk|ix_store|ix_cbor|ix_selector|ix_cid",
    "wait": r"yield|park|futex|sched|task_switch|syscall|backoff",
}


def samples(room, threads):
    """How many samples fell into each symbol, and how many visits there were."""
    out = room / f"out-{threads}"
    out.mkdir()
    words = ["perf", "record", "-q", "-e", "cpu-clock", "-F", str(FREQUENCY), "-o", room / "perf.data"]
    words += [PROGRAM, "jobs", "--blocks", room / "blocks.car", "--jobs", room / "jobs.txt", "--out", out]
    words += ["--walkers", str(threads), "--verifiers", str(threads)]
    report = subprocess.run(words, check=True, capture_output=True, text=True).stdout
    words = ["perf", "report", "-i", room / "perf.data", "--sort", "symbol", "-n", "--stdio", "-q"]
    lines = subprocess.run(words, check=True, capture_output=True, text=True).stdout.splitlines()
    counts = collections.Counter()
    for line in lines:
        if found := re.match(r"\s*[\d.]+%\s+(\d+)\s+\[[.k]\]\s+(.*)", line):
            counts[found[2].strip()] += int(found[1])
    return counts, sum(map(int, re.findall(r" visits=(\d+)", report)))


def main():
    parser = argparse.ArgumentParser(description=__doc__)
    parser.add_argument("--size", type=int, default=400_000, help="the blocks of the workload")
    parser.add_argument("--symbols", type=int, default=0, help="how many of the dearest symbols are printed too")
    words = parser.parse_args()
    with tempfile.TemporaryDirectory(prefix="visit-") as folder:
        room = pathlib.Path(folder)
        subprocess.run([sys.executable, TOP / "bench/generate.py", "small", str(words.size), room], check=True)
        for threads in (1, 4):
            counts, visits = samples(room, threads)
            parts = collections.Counter()
            for symbol, number in counts.items():
                part = next((part for part, word in PARTS.items() if re.search(word, symbol)), "other")
                parts[part] += number
            print(f"{threads}+{threads}: {visits} visits; microseconds of processor time for each")
            for part, number in parts.most_common():
                print(f"  {part:24} {number / FREQUENCY / visits * 1e6:6.2f}")
            for symbol, number in counts.most_common(words.symbols):
                print(f"    {number / FREQUENCY / visits * 1e6:6.2f} {symbol[:100]}")


if __name__ == "__main__":
    main()
