#!/usr/bin/env python3
"""Measures `receive` of an archive of raw leaves of 256 KiB from a file, and through a pipe from `get`, beside `get` alone.

Programs that are given are run in turn; without any it is the one that `./ix_export` finds. The least wall time of the runs
counts, with the CPU seconds of that run, user and system, and the peak of `receive` in MiB.
"""

import argparse
import pathlib
import subprocess
import sys
import tempfile
import time

TOP = pathlib.Path(__file__).resolve().parent.parent
ROW = "| {:<30} | {:<24} | {:>6} | {:>6} | {:>6} | {:>5} |"


def measured(room, commands):
    """Runs commands as one pipe into nothing: wall seconds, CPU seconds of user and system, and the peak of the last in KiB."""
    start, children, source = time.monotonic(), [], None
    for number, command in enumerate(commands):
        output = subprocess.PIPE if number < len(commands) - 1 else subprocess.DEVNULL
        # This script takes more than what is measured, and its child begins with that.
        timed = ["time", "-f", "%U %S %M", "-o", room / f"time.{number}", *command]
        child = subprocess.Popen(timed, stdin=source or subprocess.DEVNULL, stdout=output, stderr=subprocess.DEVNULL)
        if source:
            source.close()
        source = child.stdout
        children.append(child)
    for child in children:
        if child.wait():
            sys.exit(f"status {child.returncode} of {child.args}")
    wall = time.monotonic() - start
    used = [list(map(float, (room / f"time.{number}").read_text().split())) for number in range(len(commands))]
    return wall, sum(it[0] for it in used), sum(it[1] for it in used), used[-1][2]


def main():
    parser = argparse.ArgumentParser(description=__doc__)
    parser.add_argument("programs", nargs="*", help="NAME=PROGRAM")
    parser.add_argument("--size", type=int, default=780, help="how many leaves")
    parser.add_argument("--runs", type=int, default=7)
    parser.add_argument("--folder", default="/dev/shm", help="where the files are made")
    words = parser.parse_args()
    where = subprocess.run([TOP / "ix_export", "--where"], stdout=subprocess.PIPE, check=True, text=True) if not words.programs else None
    programs = [it.split("=", 1) for it in words.programs] or [["now", where.stdout.strip()]]
    with tempfile.TemporaryDirectory(prefix="receive-", dir=words.folder) as folder:
        room = pathlib.Path(folder)
        subprocess.run([sys.executable, TOP / "bench/generate.py", "leaves", str(words.size), room], check=True)
        root = (room / "jobs.txt").read_text().split(" ")[1]
        blocks, archive, out = room / "blocks.car", room / "archive.car", room / "out.car"
        subprocess.run([programs[0][1], "get", "--blocks", blocks, "--root", root, "--no-sync", "--quiet", "--out", archive], check=True)
        found = {}
        for _ in range(words.runs):
            for name, program in programs:
                get = [program, "get", "--blocks", blocks, "--root", root, "--quiet", "--out", "-"]
                receive = [program, "receive", "--root", root, "--quiet", "--no-sync", "--out"]
                runs = {
                    "`get`": [get],
                    "`receive` of the file": [[*receive, "-", archive]],
                    "`receive` to a file": [[*receive, out, archive]],
                    "`get \\| receive`": [get, [*receive, "-"]],
                }
                for run, commands in runs.items():
                    found.setdefault((run, name), []).append(measured(room, commands))
        print(f"{archive.stat().st_size} bytes, {words.size} leaves, the least of {words.runs} runs in turn")
        print(ROW.format("run", "program", "wall", "user", "sys", "peak"))
        for (run, name), all_runs in sorted(found.items()):
            wall, user, system, peak = min(all_runs)
            print(ROW.format(run, name, f"{wall:.3f}", f"{user:.3f}", f"{system:.3f}", f"{peak / 1024:.1f}"))
    return 0


if __name__ == "__main__":
    sys.exit(main())
