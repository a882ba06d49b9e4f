#!/usr/bin/env python3
"""Runs random jobs over random graphs with --paths, at every arrival and with --once, and compares each skip with a model of the
traversal that keeps paths: its line, in `jobs` as text and as JSON, and in `get`. Each path, parsed and followed through the model's
blocks, leads to the CID of its line, and `show` says of it what the line says. Blocks are shared, damaged, missing, malformed and in
identity CIDs, and keys have to be escaped. `--seed` takes other graphs. Ends with status 1 at the first skip that is wrong.
"""

import argparse
import json
import pathlib
import random
import re
import subprocess
import sys
import tempfile
import urllib.parse

TESTS = pathlib.Path(__file__).resolve().parent
sys.path[:0] = [str(TESTS), str(TESTS.parent / "crates/ix_cases/data")]
sys.dont_write_bytecode = True
import once
import random_steps
from hostile import PROGRAM, SECONDS_A_RUN, Wrong, text

# The keys of maps: those that selectors name, and some that have to be escaped or look like an index.
KEYS = [*random_steps.KEYS, "", "0", "a/b", "%2F", ",", " ", "..", "\n", "é", "\x7f", "$:@!"]
# What is itself in a path.
PLAIN = "".join(chr(code) for code in range(33, 127) if chr(code) not in "%/,")
# How many paths of a job are given to `show`.
SHOWN = 3


def visits(graph, selector, roots, links_once, most):
    """The depth, the CID, the root and the steps from it of the first so many visits."""
    gone, found = set(), []
    waiting = [(0, root, selector.start(), root, []) for root in reversed(roots)]
    while waiting and len(found) < most:
        depth, key, rest, root, steps = waiting.pop()
        found.append((depth, key, root, steps))
        node = graph.inside(key)
        if node is None or links_once and ((key, rest) in gone or graph.verdict(key)):
            continue
        gone.add((key, rest))
        waiting += reversed([(depth + 1, below, left, root, way) for below, left, way in selector.links_at(node, rest, steps)])
    return found


def path_text(root, steps):
    """The text of a path, by Python's own escapes."""
    segments = [urllib.parse.quote(str(step).encode(), safe=PLAIN) for step in steps]
    # Python escapes no `~`, and nothing else that isn't in `safe`.
    return "/".join([text(root), *segments]) + "/" * (segments[-1:] == [""])


def skips_of(graph, selector, roots, limit, links_once):
    """The number, the reason, the CID and the path of each skip."""
    found, cut = [], None
    for number, (depth, key, root, steps) in enumerate(visits(graph, selector, roots, links_once, limit)):
        if cut is not None and depth > cut:
            continue
        cut = None
        if reason := graph.verdict(key):
            found.append((number, reason, text(key), path_text(root, steps)))
            cut = depth
    return found


def reached(graph, path):
    """The CIDs to which a path leads, parsed and followed here: that of the link at its end, and those of the links that are all of
    a block there."""
    root, *segments = path.split("/")
    if path.endswith("/"):
        segments.pop()
    here = [key for key in graph.keys if text(key) == root][:1]
    for segment in segments:
        step = urllib.parse.unquote_to_bytes(segment).decode()
        node = graph.inside(crossed(graph, here)[-1]) if isinstance(here, list) else here[0]
        child = node[int(step)] if isinstance(node, list) else node[step]
        here = [child.key] if isinstance(child, once.Link) else (child,)
    return crossed(graph, here) if isinstance(here, list) else []


def crossed(graph, keys):
    """These CIDs, and on from the last one while its block is a link."""
    keys = list(keys)
    while isinstance(node := graph.inside(keys[-1]), once.Link) and len(keys) < 100:
        keys.append(node.key)
    return keys


def run(words, statuses):
    done = subprocess.run([PROGRAM, *map(str, words)], capture_output=True, text=True, timeout=SECONDS_A_RUN)
    if done.returncode not in statuses:
        raise Wrong(f"status {done.returncode} of {words}: {done.stderr[:300]}")
    return done


def lines_of(skips):
    return [f"  {number} {reason} {cid} {path}" for number, reason, cid, path in skips]


def compare(room, graph, jobs, chance):
    """Compares the skips of all jobs both ways, and counts them."""
    (room / "blocks.car").write_bytes(graph.car())
    (room / "jobs.txt").write_text("".join(job[-1] + "\n" for job in jobs))
    blocks = ["--blocks", room / "blocks.car"]
    count = 0
    for way in ("--every-arrival", "--once"):
        wanted = [skips_of(graph, *job[1:4], way == "--once") for job in jobs]
        words = ["jobs", *blocks, "--jobs", room / "jobs.txt", "--out", room, "--paths", way]
        came = [line for line in run(words, (0, 3, 4)).stdout.splitlines() if line.startswith("  ")]
        if came != [line for skips in wanted for line in lines_of(skips)]:
            raise Wrong(f"{came} came {way}, and {wanted} was wanted")
        objects = [json.loads(line) for line in run([*words, "--json"], (0, 3, 4)).stdout.splitlines()][:-1]
        told = [[(skip["visit"], skip["verdict"], skip["cid"], skip["path"]) for skip in job["skips"]] for job in objects]
        if told != wanted:
            raise Wrong(f"the objects {told} came {way}, and {wanted} was wanted")
        name, selector, roots, limit, line = jobs[0]
        got = run(["get", *blocks, "--root", ",".join(map(text, roots)), "--limit", limit, "--selector-hex", line.split()[-1],
                   "--out", room / "get.car", "--paths", way], (0, 3, 4))
        if [line for line in got.stderr.splitlines() if line.startswith("  ")] != lines_of(wanted[0]):
            raise Wrong(f"get {line} {way}: {got.stderr}, and {wanted[0]} was wanted")
        for skips in wanted:
            count += len(skips)
            for number, reason, cid, path in skips:
                if cid not in map(text, reached(graph, path)):
                    raise Wrong(f"{path} doesn't lead to {cid}")
            # Of a CID alone `show` shows the block, also where that is nothing but a link.
            crossing = [skip for skip in skips if "/" in skip[3] or skip[2] == skip[3]]
            for number, reason, cid, path in chance.sample(crossing, min(SHOWN, len(crossing))):
                shown = run(["show", *blocks, path], (3,))
                # Of what is malformed `show` has the first error too.
                line = re.sub(r": [a-z ]+ at [0-9]+\n$", "\n", shown.stderr) if reason == "malformed" else shown.stderr
                if line != f"{reason} {cid}\n":
                    raise Wrong(f"show {path}: {shown.stderr!r}, and not {reason} {cid}")
    return count


def main():
    parser = argparse.ArgumentParser(description=__doc__)
    parser.add_argument("--seed", type=int, default=1)
    parser.add_argument("--graphs", type=int, default=120)
    words = parser.parse_args()
    random_steps.KEYS, names = KEYS, random_steps.KEYS
    count = 0
    with tempfile.TemporaryDirectory(prefix="skips-") as room:
        for number in range(words.graphs):
            chance = random.Random(f"{words.seed}-{number}")
            random_steps.KEYS = KEYS
            graph, graph.keys = once.random_graph(chance)
            random_steps.KEYS = names
            jobs = [(name, once.Selector(raw), roots, limit, line) for name, raw, roots, limit, line in random_jobs(chance, graph.keys)]
            try:
                count += compare(pathlib.Path(room), graph, jobs, chance)
            except Wrong as wrong:
                print(f"tests/skips.py: FAILED: graph {number} of seed {words.seed}: {wrong}", file=sys.stderr)
                return 1
    print(f"tests/skips.py: {count} skips in {words.graphs} graphs passed")
    return 0


def random_jobs(chance, keys):
    """Three jobs of a graph, with their selectors as they are written."""
    jobs = []
    for number in range(3):
        selector = once.EVERYTHING if chance.random() < 0.5 else once.random_selector(chance)
        roots = [chance.choice(keys[-3:] if chance.random() < 0.8 else keys) for _ in range(chance.choice((1, 1, 2)))]
        limit = chance.choice((5, 20, 200, 200))
        line = f"job-{number} {','.join(map(text, roots))} {limit} {once.hex_of(selector)}"
        jobs.append((f"job-{number}", selector, roots, limit, line))
    return jobs


if __name__ == "__main__":
    sys.exit(main())
