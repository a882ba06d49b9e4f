#!/usr/bin/env python3
"""Runs jobs with --without over random bases and compares the differences with a model, byte for byte: the whole archive
less the sections of which the base's first copy is the same, or with --prefer-sound any. The graphs and the selectors are
random; a base has some of the blocks, sound, damaged or repeated, and blocks of other graphs, or is the file of blocks itself,
or larger. A difference and its base, put together, export the whole again. The worked examples of crates/ix_cases/data follow
with each subset of their blocks known, small ones exhaustively; 200 jobs without one base, in parts too; and a base that
changes while it is read. Ends with status 1 at the first run that is wrong.
"""

import argparse
import itertools
import pathlib
import random
import re
import subprocess
import sys
import tempfile
import threading

sys.path.insert(0, str(pathlib.Path(__file__).resolve().parent))
sys.dont_write_bytecode = True
import once
from hostile import ALL, DAG_CBOR, DIGESTS, IDENTITY, NO_ROOTS, PROGRAM, RAW, SECONDS_A_RUN, SHA2_256
from hostile import Wrong, cid, cid_of, list_of, link, read_cid, read_varint, section, text

PREFERS = "--prefer-sound"

LINE = re.compile(r"(?P<name>\S+) (?P<counts>\S+ visits=\d+ kept=\d+) sections=\d+ bytes=\d+$")


# The model.


def sections_of(car):
    """The length of the header of a CARv1 file, and its sections in their order, each a CID and a block."""
    length, at = read_varint(car, 0)
    front = at = at + length
    sections = []
    while at < len(car):
        length, begin = read_varint(car, at)
        at = begin + length
        # A CIDv0 is the digest alone, under SHA-256.
        end = begin + 34 if car[begin] == SHA2_256 else read_cid(car, begin)[2]
        sections.append((car[begin:end], car[end:at]))
    return front, sections


def first_copies(cars):
    """Of the blocks in CARv1 files the first under each CID."""
    first = {}
    for car in cars:
        for key, block in sections_of(car)[1]:
            first.setdefault(key, block)
    return first


def difference_of(whole, known):
    """A whole archive without the sections that are known, and how many these are. Each section of a whole archive is sound, so
    another block under its CID isn't."""
    front, sections = sections_of(whole)
    new = [(key, block) for key, block in sections if not known(key, block)]
    return whole[:front] + b"".join(section(*pair) for pair in new), len(sections) - len(new)


def has(bases, way=()):
    """What is known to a receiver with these files: by the first copy of each CID, or by any where sound copies are preferred."""
    copies = {}
    for car in bases:
        for key, block in sections_of(car)[1]:
            copies.setdefault(key, []).append(block)
    most = None if PREFERS in way else 1
    return lambda key, block: block in copies.get(key, [])[:most]


def line_of(line, whole, known):
    """The line of a job in the report, with its archive and with what is known."""
    found = LINE.match(line)
    archive, count = difference_of(whole, known)
    sections = len(sections_of(archive)[1])
    return f"{found['name']} {found['counts']} sections={sections} bytes={len(archive)} known={count}", archive


# Runs.


def ran(words, statuses=(0, 3, 4)):
    """What a run prints, and its status."""
    try:
        done = subprocess.run([PROGRAM, *words], capture_output=True, timeout=SECONDS_A_RUN)
    except subprocess.TimeoutExpired:
        raise Wrong(f"{words} took {SECONDS_A_RUN} seconds") from None
    if done.returncode not in statuses:
        raise Wrong(f"status {done.returncode} and {done.stderr!r} of {words}")
    return done


def written(room, name, data):
    path = room / name
    path.write_bytes(data)
    return path


def jobs(room, cars, lines, *way):
    """The lines of the report of the jobs over these files, their status, and their archives by name."""
    files = [word for number, car in enumerate(cars) for word in ("--blocks", written(room, f"blocks-{number}.car", car))]
    job_file = written(room, "jobs.txt", "".join(line + "\n" for line in lines).encode())
    out = room / "out"
    out.mkdir(exist_ok=True)
    for old in out.iterdir():
        old.unlink()
    done = ran(["jobs", *files, "--jobs", job_file, "--out", out, *way])
    return done.stdout.decode().splitlines(), done.returncode, {path.name: path.read_bytes() for path in out.iterdir()}


def base_words(room, bases):
    return [word for number, base in enumerate(bases) for word in ("--without", written(room, f"base-{number}.car", base))]


def compare(whole, report, status, archives, known, place):
    """The whole run, and what came of the one without what is known."""
    lines, whole_status, wholes = whole
    wanted, names = [], set()
    for line in lines:
        if LINE.match(line):
            name = line.split(" ")[0] + ".car"
            names.add(name)
            line, archive = line_of(line, wholes[name], known)
            if archives.get(name) != archive:
                raise Wrong(f"another difference of {name} than {archive.hex()}, {place}")
        wanted.append(line)
    if report != wanted:
        raise Wrong(f"{report} came and {wanted} was wanted, {place}")
    if status != whole_status or set(archives) != names:
        raise Wrong(f"status {status} in place of {whole_status}, and {sorted(archives)}, {place}")


# Random differences.


def damaged(block):
    return block[:-1] + bytes([block[-1] ^ 1]) if block else b"\0"


def foreign(chance, is_sound):
    """A section of no graph here: of another block, or of a codec or a hash that isn't exported."""
    block = chance.randbytes(chance.randrange(40))
    keys = [cid(RAW, block), cid_of(once.DAG_PB, SHA2_256, bytes(32)), cid_of(RAW, once.BLAKE3, chance.randbytes(32))]
    return section(keys[0] if is_sound else chance.choice(keys), block)


def is_good(key, block):
    """Whether a block under a CID is one that can be exported, or has no need to be, since the CID contains it."""
    codec, hash_code, digest = once.parts(key)
    return hash_code == IDENTITY or codec in (RAW, DAG_CBOR) and hash_code in DIGESTS and DIGESTS[hash_code](block) == digest


def random_bases(chance, car, wholes):
    """One to three files that a receiver has."""
    if chance.random() < 0.1:
        return [car]
    is_sound = chance.random() < 0.3
    sections = []
    for key, block in first_copies([*wholes, car]).items():
        fate = chance.random()
        if is_sound:
            sections += [[section(key, block)]] if fate < 0.5 and is_good(key, block) else []
        elif fate < 0.4:
            sections.append([section(key, block)])
        elif fate < 0.5:
            sections.append([section(key, damaged(block))])
        elif fate < 0.6:
            sections.append([section(key, damaged(block)), section(key, block)])
        elif fate < 0.7:
            sections.append([section(key, block), section(key, damaged(block))])
    inline = cid_of(DAG_CBOR, IDENTITY, list_of([]))
    sections += [[section(inline, b"")], *([foreign(chance, is_sound)] for _ in range(chance.choice((0, 1, 3, 200))))]
    chance.shuffle(sections)
    flat = [one for some in sections for one in some]
    cuts = sorted(chance.randrange(len(flat) + 1) for _ in range(chance.choice((0, 0, 1, 2))))
    return [NO_ROOTS + b"".join(flat[begin:end]) for begin, end in zip([0, *cuts], [*cuts, len(flat)])]


def skipped(lines, number):
    """The word and the CID of each skip of the job at this line."""
    for line in lines[number + 1 :]:
        if not line.startswith("  "):
            return
        yield line.split()[1:3]


def restored(room, way, whole, archives, bases, tried):
    """How many jobs of whose skips the base has nothing sound are exported again from the difference and the base, how many with
    the base first, and how many of them have skips."""
    lines, _, wholes = whole
    first = first_copies(bases)
    knows, keys = has(bases, way), {text(key): key for key in first}
    # A block with the digest of one that is malformed is that one.
    sound = {name: [] for name in keys}
    for key, block in (pair for car in bases for pair in sections_of(car)[1]):
        if is_good(key, block):
            sound[text(key)].append(block)
    counts = [0, 0, 0]
    for number, line in enumerate(lines):
        found = LINE.match(line)
        if not found or " done " not in line or counts[0] == 2:
            continue
        skips = list(skipped(lines, number))
        if any(word != "malformed" and any(knows(keys[link], block) for block in sound.get(link, [])) for word, link in skips):
            continue
        name = found["name"]
        orders = [[archives[name + ".car"], *bases]]
        # A base may come first if each of its first copies is sound, or sound ones are preferred.
        if PREFERS in way or all(is_good(key, block) for key, block in first.items()):
            orders.append([*bases, archives[name + ".car"]])
        for order, cars in enumerate(orders):
            report, _, again = jobs(room, cars, [tried[name]], *way)
            # A walk at every link expands damaged blocks, of which each store has its own.
            if skips and " done " not in report[0] and "--once" not in way:
                continue
            same_skips = [link for _, link in skipped(report, 0)] == [link for _, link in skips]
            if again[name + ".car"] != wholes[name + ".car"] or not same_skips:
                raise Wrong(f"{report} of {tried[name]} doesn't restore {line}, over {[car.hex() for car in cars]}")
            counts[order] += 1
            counts[2] += bool(skips)
    return counts


def random_differences(room, seed, graphs):
    differences, again = 0, [0, 0, 0]
    for number in range(graphs):
        chance = random.Random(f"{seed}-{number}")
        graph, keys = once.random_graph(chance)
        tried = once.random_jobs(chance, keys)
        lines = [job[-1] for job in tried]
        way = chance.choice(([], ["--once"])) + [PREFERS] * (chance.random() < 0.4)
        car = graph.car()
        try:
            whole = jobs(room, [car], lines, *way)
            for _ in range(2):
                bases = random_bases(chance, car, whole[2].values())
                place = f"over {car.hex()} without {[base.hex() for base in bases]}"
                came = jobs(room, [car], lines, *way, *base_words(room, bases))
                compare(whole, *came, has(bases, way), place)
                differences += len(lines)
                more = restored(room, way, whole, came[2], bases, {job[0]: job[-1] for job in tried})
                again = [sum(pair) for pair in zip(again, more)]
            listed(room, chance, whole, car, lines, way)
        except Wrong as wrong:
            raise Wrong(f"seed {seed}-{number}: {wrong}") from None
    return f"{differences} random differences, {again[0]} jobs restored, {again[1]} with the base first too, {again[2]} of these runs with skips"


def listed(room, chance, whole, car, lines, way):
    """The difference without a list of what a base has, and of a damaged copy that nobody hashes."""
    base = random_bases(chance, car, whole[2].values())[0]
    path = written(room, "base-0.car", base)
    cids = ran(["inspect", "--cids", path]).stdout.decode()
    keys = [key for key, _ in sections_of(base)[1] if once.parts(key)[1] != IDENTITY]
    if cids != "".join(text(key) + "\n" for key in keys):
        raise Wrong(f"{cids!r} came of inspect --cids over {base.hex()}")
    marked = cids.replace("\n", chance.choice(("\n", "\r\n", "\n\n# a comment\n")))
    came = jobs(room, [car], lines, *way, "--without-list", written(room, "list.txt", marked.encode()))
    compare(whole, *came, lambda key, block: key in keys, f"over {car.hex()} without the list {marked!r}")


# Worked examples.


def subsets_of(chance, sections):
    """All subsets of a few sections, and some of many."""
    if len(sections) <= 3:
        for size in range(len(sections) + 1):
            yield from itertools.combinations(sections, size)
    else:
        yield sections
        for _ in range(2):
            yield [one for one in sections if chance.random() < 0.5]


def worked_examples(room, seed, graphs):
    differences, seen = 0, set()
    chance = random.Random(seed)
    for sections, lines in once.examples():
        if tuple(sections) in seen:
            continue
        seen.add(tuple(sections))
        car = NO_ROOTS + b"".join(sections)
        if once.run(room, car, lines, (), (0, 2, 3, 4))[1] == 2:
            continue
        whole = jobs(room, [car], lines)
        for known in subsets_of(chance, sections):
            base = NO_ROOTS + b"".join(known)
            came = jobs(room, [car], lines, *base_words(room, [base]))
            compare(whole, *came, has([base]), f"of {lines} over {car.hex()} without {base.hex()}")
            differences += len(lines)
    return f"{differences} of worked examples"


# Many jobs.


def many_jobs(room, seed, graphs):
    """200 jobs, each of a list of its own over shared blocks, without one base; at once, and in three parts."""
    chance = random.Random(seed)
    leaves = [number.to_bytes(2, "big") for number in range(300)]
    blocks = {cid(RAW, leaf): leaf for leaf in leaves}
    keys, lines = list(blocks), []
    for number in range(200):
        block = list_of([link(key) for key in chance.sample(keys, 20)])
        root = cid(DAG_CBOR, block)
        blocks[root] = block
        lines.append(f"job-{number} {text(root)} 100 {ALL}")
    car = NO_ROOTS + b"".join(section(key, block) for key, block in blocks.items())
    base = NO_ROOTS + b"".join(section(key, block) for key, block in blocks.items() if chance.random() < 0.5)
    whole = jobs(room, [car], lines)
    words = base_words(room, [base])
    came = jobs(room, [car], lines, *words)
    compare(whole, *came, has([base]), "of 200 jobs")
    parts = [jobs(room, [car], lines, *words, "--part", f"{part}/3") for part in (1, 2, 3)]
    if [line for part in parts for line in part[0][:-1]] != came[0][:-1]:
        raise Wrong("the parts of 200 jobs have another report")
    if {name: archive for part in parts for name, archive in part[2].items()} != came[2]:
        raise Wrong("the parts of 200 jobs have other archives")
    return "200 jobs without one base, in parts too"


# A base that changes.


def changing_base(room, seed, graphs):
    """A base whose copies become damaged, or that becomes shorter, while it is read. Each section of the whole is in the
    archive or counts as known, or the base is rejected."""
    chance = random.Random(seed)
    leaves = [chance.randbytes(30_000) for _ in range(300)]
    root_block = list_of([link(cid(RAW, leaf)) for leaf in leaves])
    root = cid(DAG_CBOR, root_block)
    sections = [section(root, root_block), *(section(cid(RAW, leaf), leaf) for leaf in leaves)]
    car = written(room, "blocks-0.car", NO_ROOTS + b"".join(sections))
    sound = car.read_bytes()
    words = ["get", "--blocks", car, "--root", text(root), "--quiet"]
    whole = ran(words).stdout
    wanted = sections_of(whole)[1]
    broken = NO_ROOTS + b"".join(section(key, damaged(block)) for key, block in sections_of(sound)[1])
    rejected = 0
    for number in range(20):
        base = written(room, "base-0.car", sound)

        def change(is_cut=number % 2):
            with base.open("r+b") as file:
                for at in range(0, len(sound), 1 << 16):
                    file.seek(at)
                    file.write(broken[at : at + (1 << 16)])
                if is_cut:
                    file.truncate(len(sound) // 3)

        other = threading.Thread(target=change)
        other.start()
        done = ran(["get", "--blocks", car, "--root", text(root), "--without", base], (0, 2))
        other.join()
        if done.returncode == 2:
            rejected += 1
            if done.stdout or len(done.stderr.splitlines()) != 1:
                raise Wrong(f"a changing base is rejected with {done.stderr!r}")
            continue
        front, came = sections_of(done.stdout)
        rest = iter(wanted)
        known = int(re.search(rb" known=(\d+)\n", done.stderr)[1])
        if done.stdout[:front] != whole[:front] or not all(one in rest for one in came) or len(came) + known != len(wanted):
            raise Wrong(f"a changing base gives {done.stderr!r}")
    return f"20 changing bases, {rejected} rejected"


def main():
    parser = argparse.ArgumentParser(description=__doc__)
    parser.add_argument("--seed", default="1")
    parser.add_argument("--graphs", type=int, default=40, help="how many random graphs, each with eight jobs and three bases")
    words = parser.parse_args()
    answers = []
    with tempfile.TemporaryDirectory(prefix="differences-") as room:
        for part in (random_differences, worked_examples, many_jobs, changing_base):
            try:
                answers.append(part(pathlib.Path(room), words.seed, words.graphs))
            except Wrong as wrong:
                print(f"tests/differences.py: FAILED: {part.__name__}: {wrong}", file=sys.stderr)
                return 1
    print(f"tests/differences.py: passed: {'; '.join(answers)}")
    return 0


if __name__ == "__main__":
    sys.exit(main())
