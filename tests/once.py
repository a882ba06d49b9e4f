#!/usr/bin/env python3
"""Runs jobs at every arrival and with --once, each without prefetching and with it, and compares all with a model of the two
traversals: the reports line by line, the archives byte for byte. Where a job is at its limit neither way, both archives are
the same. The jobs are random ones over random graphs, in which blocks are shared, damaged, missing and malformed; those of the
runs and walks in crates/ix_cases/data, of which the archives alone are compared; and one over 200,000 blocks with ten ways to
each. Ends with status 1 at the first run that is wrong.
"""

import argparse
import json
import pathlib
import random
import re
import subprocess
import sys
import tempfile

TESTS = pathlib.Path(__file__).resolve().parent
sys.path[:0] = [str(TESTS), str(TESTS.parent / "crates/ix_cases/data")]
sys.dont_write_bytecode = True
import random_steps
from hostile import ALL, DAG_CBOR, DIGESTS, IDENTITY, NO_ROOTS, PROGRAM, RAW, SECONDS_A_RUN, SHA2_256, SHA2_512, TOP
from hostile import Wrong, cid, cid_of, head, header, read_cid, read_varint, section, text

DAG_PB, BLAKE3 = 0x70, 0x1E
WAYS = ((), ("--once",))
# Each way without prefetching and with it: the reports, statuses and archives are the same.
PREFETCH = (("--prefetch", "off"), ("--prefetch", "on"))


class Link:
    """A link to a CID."""

    def __init__(self, key):
        self.key = key


# Blocks.


def entries_of(node):
    """The entries of a map in their order: the shorter key first, and those of one length by their bytes."""
    return sorted(node.items(), key=lambda entry: (len(entry[0].encode()), entry[0].encode()))


def encoded(node):
    """A node in DAG-CBOR: a number, a text, a link, a list or a map."""
    if isinstance(node, int):
        return head(0, node) if node >= 0 else head(1, -1 - node)
    if isinstance(node, str):
        return head(3, len(node.encode())) + node.encode()
    if isinstance(node, Link):
        return b"\xd8\x2a" + head(2, len(node.key) + 1) + b"\0" + node.key
    if isinstance(node, list):
        return head(4, len(node)) + b"".join(map(encoded, node))
    return head(5, len(node)) + b"".join(encoded(key) + encoded(value) for key, value in entries_of(node))


class Graph:
    """Blocks under their CIDs, each the first that was added, and of the blocks of DAG-CBOR what they spell: what isn't
    here spells nothing."""

    def __init__(self):
        self.blocks, self.sections, self.nodes = {}, [], {}

    def node(self, node):
        """The block of a node."""
        block = encoded(node)
        self.nodes[block] = node
        return block

    def add(self, key, block):
        self.sections.append(section(key, block))
        self.blocks.setdefault(key, block)

    def car(self):
        return NO_ROOTS + b"".join(self.sections)

    def verdict(self, key):
        """Why a CID is skipped, or that it isn't."""
        codec, hash_code, digest = parts(key)
        if codec not in (RAW, DAG_CBOR):
            return "codec"
        if hash_code not in (IDENTITY, SHA2_256, SHA2_512):
            return "hash"
        block = digest if hash_code == IDENTITY else self.blocks.get(key)
        if block is None:
            return "missing"
        if DIGESTS[hash_code](block) != digest:
            return "damaged"
        return "malformed" if codec == DAG_CBOR and block not in self.nodes else None

    def inside(self, key):
        """What is in the block of a CID, sound or not, if a walk can expand it."""
        codec, hash_code, digest = parts(key)
        if codec != DAG_CBOR or hash_code not in (IDENTITY, SHA2_256, SHA2_512):
            return None
        return self.nodes.get(digest if hash_code == IDENTITY else self.blocks.get(key))


def parts(key):
    """The codec, the hash code and the digest of a CIDv1."""
    _, at = read_varint(key, 0)
    codec, _ = read_varint(key, at)
    return codec, *read_cid(key, 0)[:2]


# What is left of a selector: its places, numbered as they come, each with the depth that is left of the recursion round it.


class Selector:
    """A selector of random_steps.py with a number for each place."""

    def __init__(self, root):
        self.places = []
        self.root = self.numbered(root, None)

    def numbered(self, here, round_it):
        """The number of a selector, with the recursion round it, whose sequence it is where it is one's."""
        form, *rest = here
        number = len(self.places)
        self.places.append(None)
        if form == "recursive":
            below = {None: self.numbered(rest[1], number)}
        elif form == "union":
            below = [self.numbered(member, round_it) for member in rest[0]]
        elif form == "fields":
            below = {name: self.numbered(part, round_it) for name, part in rest[0].items()}
        else:
            below = [self.numbered(rest[-1], round_it)] if form in ("all", "index", "range") else []
        self.places[number] = (form, rest, below, round_it)
        return number

    def start(self):
        return self.joined(self.leads(self.root, None))

    def leads(self, number, depth):
        """The places to which one leads without a step, with their depths."""
        form, rest, below, round_it = self.places[number]
        if form == "recursive":
            return self.leads(below[None], rest[0])
        if form == "union":
            return [place for member in below for place in self.leads(member, depth)]
        if form != "edge":
            return [(number, depth)]
        if depth is not None and depth < 2:
            return []
        sequence = self.places[round_it][2][None]
        return self.leads(sequence, None if depth is None else depth - 1)

    def step(self, rest, step):
        """What is left after a step: nothing where the child isn't entered."""
        found = []
        for number, depth in rest:
            form, words, below, _ = self.places[number]
            if form == "all" or form == "index" and words[0] == step:
                found += self.leads(below[0], depth)
            elif form == "fields" and step in below:
                found += self.leads(below[step], depth)
            elif form == "range" and isinstance(step, int) and words[0] <= step < words[1]:
                found += self.leads(below[0], depth)
        return self.joined(found)

    @staticmethod
    def joined(found):
        """Each place once, with the greatest of its depths; no depth is greater than one without an end."""
        most = {}
        for number, depth in found:
            if number not in most or depth is None or most[number] is not None and most[number] < depth:
                most[number] = depth
        return frozenset(most.items())

    def links(self, node, rest):
        """The links of a node that are entered, in their order, with what is left at each."""
        return [(key, left) for key, left, _ in self.links_at(node, rest, [])]

    def links_at(self, node, rest, steps):
        """The same, with the steps to each after these."""
        if isinstance(node, Link):
            yield node.key, rest, steps
            return
        children = enumerate(node) if isinstance(node, list) else entries_of(node) if isinstance(node, dict) else ()
        for step, child in children:
            if left := self.step(rest, step):
                yield from self.links_at(child, left, [*steps, step])


# The traversals.


def visits(graph, selector, roots, once, most):
    """The depth and the CID of the first so many arrivals."""
    gone, found = set(), []
    waiting = [(0, root, selector.start()) for root in reversed(roots)]
    while waiting and len(found) < most:
        depth, key, rest = waiting.pop()
        found.append((depth, key))
        node = graph.inside(key)
        if node is None or once and ((key, rest) in gone or graph.verdict(key)):
            continue
        gone.add((key, rest))
        waiting += reversed([(depth + 1, below, left) for below, left in selector.links(node, rest)])
    return found


def told(graph, name, selector, roots, limit, once):
    """The end of a job, its lines of the report, and its archive."""
    found = visits(graph, selector, roots, once, limit + 1)
    end = "limit" if len(found) > limit else "done"
    archive, written, skips, kept, cut = header(roots), set(), [], 0, None
    for number, (depth, key) in enumerate(found[:limit]):
        if cut is not None and depth > cut:
            continue
        kept, cut = kept + 1, None
        if reason := graph.verdict(key):
            skips.append(f"  {number} {reason} {text(key)}")
            cut = depth
        elif key not in written and parts(key)[1] != IDENTITY:
            written.add(key)
            archive += section(key, graph.blocks[key])
    line = f"{name} {end} visits={len(found[:limit])} kept={kept} sections={len(written)} bytes={len(archive)}"
    return end, [line, *skips], archive


# Runs.


def run(room, car, lines, way, statuses=(0, 3, 4)):
    """The report of a run or its error line, its status, and the folder of its archives."""
    (room / "blocks.car").write_bytes(car)
    (room / "jobs.txt").write_text("".join(line + "\n" for line in lines))
    out = room / f"out{''.join(way)}"
    out.mkdir(exist_ok=True)
    for old in out.iterdir():
        old.unlink()
    words = [PROGRAM, "jobs", "--blocks", room / "blocks.car", "--jobs", room / "jobs.txt", "--out", out, *way]
    try:
        done = subprocess.run(words, capture_output=True, text=True, timeout=SECONDS_A_RUN)
    except subprocess.TimeoutExpired:
        raise Wrong(f"the jobs {lines} took {SECONDS_A_RUN} seconds") from None
    if done.returncode not in statuses or bool(done.stderr) != (done.returncode == 2):
        raise Wrong(f"status {done.returncode} and {done.stderr!r} of the jobs {lines}")
    return (done.stdout + done.stderr).splitlines(), done.returncode, out


def compare(room, graph, jobs):
    """Runs the jobs, each a name, a selector with its places, roots, a limit and its line, both ways."""
    ends, archives = [], []
    for way in WAYS:
        for prefetch in PREFETCH:
            ended, came = compare_one(room, graph, jobs, way + prefetch)
        ends.append(ended)
        archives.append(came)
    for job, first, second, every, once in zip(jobs, *ends, *archives):
        if first == second == "done" and every != once:
            raise Wrong(f"the archives of the job {job[-1]} differ, over {graph.car().hex()}")
    return sum(first == second == "done" for first, second in zip(*ends))


def compare_one(room, graph, jobs, way):
    """The same one way; answers how each job ended, and its archive."""
    report, status, out = run(room, graph.car(), [job[-1] for job in jobs], way)
    wanted, ended, came = [], [], []
    for name, selector, roots, limit, line in jobs:
        end, lines, archive = told(graph, name, selector, roots, limit, "--once" in way)
        wanted += lines
        ended.append(end)
        came.append((out / f"{name}.car").read_bytes())
        if came[-1] != archive:
            raise Wrong(f"another archive {' '.join(way)} of the job {line}, over {graph.car().hex()}")
    skips = sum(line.startswith("  ") for line in wanted)
    wanted.append(f"total jobs={len(jobs)} done={ended.count('done')} skips={skips}")
    if report != wanted:
        raise Wrong(f"{report} came {' '.join(way)} and {wanted} was wanted of the jobs {jobs}, over {graph.car().hex()}")
    if status != (4 if "limit" in ended else 3 if skips else 0):
        raise Wrong(f"status {status} {' '.join(way)}, over {graph.car().hex()}")
    return ended, came


# Random graphs.


def random_node(chance, keys, left):
    """A node whose links are to some of these CIDs, to the last ones rather."""
    form = chance.random()
    if keys and (form < 0.4 or left == 0):
        return Link(chance.choice(keys[-4:] if chance.random() < 0.6 else keys))
    if left == 0 or form < 0.5:
        return chance.choice((0, 7, "a"))
    size = chance.choice((0, 1, 2, 2, 3, 4))
    if form < 0.75:
        return [random_node(chance, keys, left - 1) for _ in range(size)]
    return {name: random_node(chance, keys, left - 1) for name in chance.sample(random_steps.KEYS, min(size, 4))}


def random_graph(chance):
    """A graph, and the CIDs in it; the last ones have most below them."""
    graph, keys, foreign = Graph(), [], [cid_of(DAG_PB, SHA2_256, bytes(32)), cid_of(RAW, BLAKE3, bytes(32))]
    stands = []
    for _ in range(chance.randrange(2, 14)):
        kind = chance.random()
        if kind < 0.05:
            keys.append(chance.choice(foreign))
            continue
        hash_code = chance.choice((SHA2_256, SHA2_256, SHA2_256, SHA2_512, IDENTITY))
        if kind < 0.15:
            codec, block = RAW, chance.randbytes(chance.randrange(4))
        elif kind < 0.2:
            codec, block = DAG_CBOR, graph.node(random_node(chance, keys, 2)) + b"\0"
        else:
            codec, block = DAG_CBOR, graph.node(random_node(chance, keys, 3))
        key = cid(codec, block, hash_code)
        keys.append(key)
        if hash_code != IDENTITY or chance.random() < 0.2:
            stands.append((key, block))
    # Some blocks are missing, some come twice, and some have another in their place, which may link to any CID, so to those
    # that lead to it too.
    chance.shuffle(stands)
    for key, block in stands:
        fate = chance.random()
        if fate < 0.08:
            continue
        if fate < 0.2:
            graph.add(key, graph.node(random_node(chance, keys, 2)))
        if fate > 0.1:
            graph.add(key, block)
    return graph, keys


EVERYTHING = ("recursive", None, ("all", ("edge",)))


def random_selector(chance):
    kind = chance.random()
    if kind < 0.3:
        return EVERYTHING
    if kind < 0.5:
        return ("recursive", chance.randrange(7), ("all", ("edge",)))
    if kind < 0.6:
        return ("fields", {"a": ("matcher",), "b": EVERYTHING})
    return random_steps.selector(chance, chance.randint(2, 7), None)


def hex_of(selector):
    """The DAG-CBOR of a selector in hex."""
    return encoded(json.loads(random_steps.written(selector))).hex()


def random_jobs(chance, keys):
    jobs = []
    for number in range(8):
        selector = random_selector(chance)
        roots = [chance.choice(keys[-3:] if chance.random() < 0.8 else keys) for _ in range(chance.choice((1, 1, 1, 2, 3)))]
        limit = chance.choice((1, 5, 20, 300, 300, 300))
        line = f"job-{number} {','.join(map(text, roots))} {limit} {hex_of(selector)}"
        jobs.append((f"job-{number}", Selector(selector), roots, limit, line))
    return jobs


def random_graphs(room, seed, graphs):
    jobs = same = 0
    for number in range(graphs):
        chance = random.Random(f"{seed}-{number}")
        graph, keys = random_graph(chance)
        tried = random_jobs(chance, keys)
        try:
            same += compare(room, graph, tried)
        except Wrong as wrong:
            raise Wrong(f"seed {seed}-{number}: {wrong}") from None
        jobs += len(tried)
    return f"{jobs} random jobs, {same} with the same archive both ways"


# Worked examples.


def cases():
    """The lines of the files of cases, in the order in which they are read, with names put in; an example begins with None."""
    folder = TOP / "crates/ix_cases"
    names = {}
    for file in (folder / "args").read_text().split():
        if not file.endswith(".cases"):
            continue
        for line in (folder / "data" / pathlib.Path(file).name).read_text().splitlines():
            word, _, rest = line.partition(" ")
            if word == "let":
                name, _, body = rest.partition(" ")
                names[name] = spelled(body, names)
            elif word == "example":
                yield None, rest
            elif line and word != "#":
                yield word, rest if word in ("step", "selector", "notation", "notation_of") else spelled(rest, names)


def spelled(line, names):
    """A line with its names replaced by their texts."""

    def put(found):
        part = found[1]
        if star := re.fullmatch(r"(.*)\*(\d+)", part):
            return names.get(star[1], star[1]) * int(star[2])
        if count := re.fullmatch(r"(.*)#(\d+)", part):
            return "".join(names[count[1]].replace("#", str(number)) for number in range(int(count[2])))
        return names.get(part, found[0])

    return re.sub(r"<([^<> ]*)>", put, line)


def examples():
    """The sections and the jobs of each example: those of its runs, and of the walks over the blocks that were added."""
    sections, jobs, seen = [], [], set()
    for word, rest in cases():
        if word in (None, "run") and jobs and (key := (tuple(sections), tuple(jobs))) not in seen:
            seen.add(key)
            yield [bytes.fromhex(one) for one in sections], jobs
        if word is None:
            sections, jobs = [], []
        call = rest.partition(" = ")[0].split(" ")
        if word == "section":
            sections.append(rest)
        elif word == "job":
            jobs.append(rest)
        elif word == "add":
            key, block = (bytes.fromhex(one.replace("-", "")) for one in call)
            sections.append(section(key, block).hex())
        elif word in ("walk", "visits"):
            roots, limit, selector = call[-3:]
            keys = [bytes.fromhex(root) for root in roots.split(",")]
            # The root of a job in a job file is a CIDv1.
            if all(key[0] == 1 for key in keys):
                for most in (limit, 1000):
                    jobs.append(f"job-{len(jobs)} {','.join(map(text, keys))} {most} {selector}")
    if jobs:
        yield [bytes.fromhex(one) for one in sections], jobs


def worked_examples(room, seed, graphs):
    jobs = same = 0
    for sections, lines in examples():
        statuses, done = [], []
        for way in WAYS:
            answers = []
            for prefetch in PREFETCH:
                report, status, out = run(room, NO_ROOTS + b"".join(sections), lines, way + prefetch, (0, 2, 3, 4))
                answers.append((report, status, {file.name: file.read_bytes() for file in out.iterdir()}))
            if answers[0] != answers[1]:
                raise Wrong(f"{lines} differ {' '.join(way)} without prefetching and with it, over {b''.join(sections).hex()}")
            ended = [line.split(" ")[0] for line in report if " done " in line]
            statuses.append(report if status == 2 else None)
            done.append({name: (out / f"{name}.car").read_bytes() for name in ended})
        if statuses[0] != statuses[1]:
            raise Wrong(f"{lines} are refused one way: {statuses}")
        jobs += len(lines)
        for name in done[0].keys() & done[1].keys():
            same += 1
            if done[0][name] != done[1][name]:
                raise Wrong(f"the archives of the job {name} of {lines} differ, over {b''.join(sections).hex()}")
    return f"{jobs} jobs of worked examples, {same} with the same archive both ways"


# A large graph.


def ten_ways(room, seed, graphs):
    """Ten lists over one tree of 200,000 blocks: two million arrivals, and 200,020 where each block is gone into once."""
    graph = Graph()

    def add(codec, block):
        key = cid(codec, block)
        graph.add(key, block)
        return key

    level = [add(RAW, number.to_bytes(4, "big")) for number in range(180_000)]
    while len(level) > 1:
        level = [add(DAG_CBOR, encoded([Link(key) for key in level[at : at + 10]])) for at in range(0, len(level), 10)]
    lists = [add(DAG_CBOR, encoded([number, Link(level[0])])) for number in range(10)]
    root = add(DAG_CBOR, encoded([Link(key) for key in lists]))
    blocks = len(graph.blocks)
    for prefetch in PREFETCH:
        report, _, out = run(room, graph.car(), [f"ways {text(root)} 1000000 {ALL}"], ("--once", *prefetch))
        archive = (out / "ways.car").read_bytes()
        wanted = f"ways done visits={blocks + 9} kept={blocks + 9} sections={blocks} bytes={len(archive)}"
        if report[0] != wanted:
            raise Wrong(f"{wanted} was wanted, {report[0]} came")
        if archive[: len(header([root]))] != header([root]) or sections_of(archive, len(header([root]))) != sorted(graph.sections):
            raise Wrong("the archive hasn't each block once")
        report, *_ = run(room, graph.car(), [f"ways {text(root)} 1000000 {ALL}"], prefetch)
        if not report[0].startswith("ways limit visits=1000000 "):
            raise Wrong(f"the limit was wanted at every arrival, {report[0]} came")
    return f"{blocks} blocks with ten ways to each"


def sections_of(archive, at):
    """The sections after a place, in order of their bytes."""
    found = []
    while at < len(archive):
        length, begin = read_varint(archive, at)
        found.append(archive[at : begin + length])
        at = begin + length
    return sorted(found)


def main():
    parser = argparse.ArgumentParser(description=__doc__)
    parser.add_argument("--seed", default="1")
    parser.add_argument("--graphs", type=int, default=120, help="how many random graphs, each with eight jobs")
    words = parser.parse_args()
    answers = []
    with tempfile.TemporaryDirectory(prefix="once-") as room:
        for part in (random_graphs, worked_examples, ten_ways):
            try:
                answers.append(part(pathlib.Path(room), words.seed, words.graphs))
            except Wrong as wrong:
                print(f"tests/once.py: FAILED: {part.__name__}: {wrong}", file=sys.stderr)
                return 1
    print(f"tests/once.py: passed: {'; '.join(answers)}")
    return 0


if __name__ == "__main__":
    sys.exit(main())
