#!/usr/bin/env python3
"""Runs a thousand jobs over a shared graph with 64 walkers and 64 verifiers, ten times, and compares each
archive and the report with those of one walker and one verifier. Ends with status 1 where one differs.
"""

import argparse
import filecmp
import pathlib
import subprocess
import sys
import tempfile

TOP = pathlib.Path(__file__).resolve().parent.parent
PROGRAM = subprocess.run([TOP / "ix_export", "--where"], stdout=subprocess.PIPE, check=True, text=True).stdout.strip()


def export(room, name, threads):
    """Runs the jobs with so many walkers and verifiers; answers the folder of archives, with the report in it."""
    out = room / name
    out.mkdir()
    words = [PROGRAM, "jobs", "--blocks", room / "blocks.car", "--jobs", room / "jobs.txt", "--out", out]
    words += ["--walkers", str(threads), "--verifiers", str(threads)]
    with open(out / "report", "wb") as file:
        subprocess.run(words, stdout=file, check=True)
    return out


def main():
    parser = argparse.ArgumentParser(description=__doc__)
    parser.add_argument("--size", type=int, default=2_000, help="the blocks of the shared graph")
    parser.add_argument("--runs", type=int, default=10)
    words = parser.parse_args()
    with tempfile.TemporaryDirectory(prefix="load-") as folder:
        room = pathlib.Path(folder)
        subprocess.run([sys.executable, TOP / "bench/generate.py", "shared", str(words.size), room], check=True)
        wanted = export(room, "wanted", 1)
        names = sorted(path.name for path in wanted.iterdir())
        for run in range(words.runs):
            came = export(room, f"run-{run}", 64)
            same, other, missing = filecmp.cmpfiles(wanted, came, names, shallow=False)
            if other or missing or len(same) != len(list(came.iterdir())):
                print(f"run {run + 1} differs in {(other + missing)[:5]}")
                return 1
    print(f"{words.runs} runs of {len(names) - 1} jobs with 64 walkers and 64 verifiers: all the same")
    return 0


if __name__ == "__main__":
    sys.exit(main())
