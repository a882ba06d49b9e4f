#!/usr/bin/env python3
"""Receives streams beside a model of the decision: it takes the next section if that is sound and the next block of the traversal
that isn't here yet, and names the first place otherwise. The streams are the archives of random jobs over random graphs, in
which blocks are damaged, missing or in their CIDs, in pieces of 1, 7, 4,096 and 65,536 bytes; the same with one section left
out, doubled, swapped with the next, moved to the end, or one that nobody asked for in each gap; small ones with each byte changed
and cut at each byte; those of paths; differences, with the base that they were made without, of which some copies are damaged,
and with one more section that the base has; and leaves that several threads hash, by one processor and by all. The line, the
status and the bytes that are written are compared whole, half of them with --paths: the links that are absent, and the one at
which a stream stopped. `--seed` takes others. Ends with status 1 at the first that is wrong.
"""

import argparse
import os
import pathlib
import random
import subprocess
import sys
import tempfile

TESTS = pathlib.Path(__file__).resolve().parent
sys.path[:0] = [str(TESTS)]
sys.dont_write_bytecode = True
import once
import paths
import skips
from differences import sections_of
from hostile import DAG_CBOR, DIGESTS, IDENTITY, PROGRAM, RAW, SECONDS_A_RUN, Wrong, cid, header, section, text

PIECES = (1, 7, 4096, 65536)
WHY_UNREAD = {
    "codec": "its codec is neither raw nor DAG-CBOR",
    "hash": "its hash is neither SHA-256, SHA-512 nor identity",
    "malformed": "its inline bytes aren't DAG-CBOR",
}
ALLOWED = {"": (), "raw": (RAW,), "dag-cbor": (DAG_CBOR,), "all": (RAW, DAG_CBOR)}


# The model.


class Rejected(Exception):
    """A stream that is rejected: how many bytes are written, the line after the path, and the CID at which it stopped, if it has
    one."""


class Reception:
    """What has come of an archive of a job, by the definition: the traversal over the sections that are here, each block
    expanded once with what is left of the selector. The blocks of a base are here from the beginning."""

    def __init__(self, nodes, selector, roots, limit, allowed, base):
        self.nodes, self.selector, self.roots, self.limit, self.allowed = nodes, selector, roots, limit, allowed
        self.base = base
        self.waiting = [(root, selector.start()) for root in reversed(roots)]
        self.here, self.missing, self.gone = {}, set(), set()
        self.visits = self.absent = 0

    def expand(self, key, rest):
        codec, hash_code, digest = once.parts(key)
        block = digest if hash_code == IDENTITY else self.base.get(key, self.here.get(key))
        node = self.nodes.get(block) if codec == DAG_CBOR and hash_code in DIGESTS else None
        if node is not None and (key, rest) not in self.gone:
            self.gone.add((key, rest))
            self.waiting += reversed(list(self.selector.links(node, rest)))
        self.visits += 1

    def next(self, place, at):
        """The next link, or None at the end."""
        if not self.waiting:
            return None
        if self.visits == self.limit:
            raise Rejected(place, f"limit at {place}: {at}: more links than --limit allows", None)
        return self.waiting.pop()

    def pass_by(self, key, rest, place, came):
        codec, hash_code, _ = once.parts(key)
        if codec in (RAW, DAG_CBOR) and hash_code in DIGESTS and hash_code != IDENTITY and key not in self.here and key not in self.base:
            if codec not in self.allowed or key in self.roots:
                raise Rejected(place, f"missing at {place}: expected {text(key)}, and {came}", key)
            self.missing.add(key)
            self.absent += 1
        self.expand(key, rest)

    def unread(self, key):
        """The word for why nothing can come for a CID, or None."""
        codec, hash_code, digest = once.parts(key)
        if codec not in (RAW, DAG_CBOR):
            return "codec"
        if hash_code != IDENTITY and hash_code not in DIGESTS:
            return "hash"
        return "malformed" if hash_code == IDENTITY and codec == DAG_CBOR and digest not in self.nodes else None

    def take(self, place, key, block):
        codec, hash_code, digest = once.parts(key)
        at = f"at {place}: {text(key)}"
        word = self.unread(key)
        if word:
            pass
        elif hash_code == IDENTITY:
            word = "inline"
        elif DIGESTS[hash_code](block) != digest:
            word = "damaged"
        elif codec == DAG_CBOR and block not in self.nodes:
            word = "malformed"
        if word:
            raise Rejected(place, f"{word} {at}", key)
        if key in self.base:
            raise Rejected(place, f"known {at}: a file of --with has it", key)
        if key in self.here:
            raise Rejected(place, f"repeated {at}: it came before; ask for dups=n", key)
        if key in self.missing:
            raise Rejected(place, f"order {at}: it was missing where it was expected first", key)
        while found := self.next(place, text(key)):
            if found[0] == key:
                self.here[key] = block
                return self.expand(*found)
            self.pass_by(*found, place, f"{text(key)} came")
        raise Rejected(place, f"surplus {at}: it isn't asked for", key)

    def finish(self, place):
        while found := self.next(place, "the end"):
            self.pass_by(*found, place, "the stream ends")
        for root in self.roots:
            if word := self.unread(root):
                raise Rejected(place, f"{word} at {place}: the root {text(root)}: {WHY_UNREAD[word]}", root)


class Kept:
    """The blocks that have come, as `skips.visits` reads them."""

    def __init__(self, nodes, here):
        self.nodes, self.here = nodes, here

    def inside(self, key):
        codec, hash_code, digest = once.parts(key)
        block = digest if hash_code == IDENTITY else self.here.get(key)
        return self.nodes.get(block) if codec == DAG_CBOR and hash_code in DIGESTS else None

    def verdict(self, key):
        """Each is sound."""


def visits_of(reception):
    """The number, the CID and the path of each visit over what has come."""
    kept = Kept(reception.nodes, {**reception.here, **reception.base})
    made = skips.visits(kept, reception.selector, reception.roots, True, reception.limit)
    return [(number, key, skips.path_text(root, steps)) for number, (_, key, root, steps) in enumerate(made)]


def told(nodes, job, allowed, sections, tail=b"", base=None, with_paths=False):
    """How many bytes of a stream are written, its report or line, and its status: of a header for the job's roots, sections,
    and the beginning of another one."""
    _, selector, roots, limit, _ = job
    reception = Reception(nodes, selector, roots, limit, ALLOWED[allowed], base or {})
    place = len(header(roots))
    try:
        for key, block in sections:
            reception.take(place, key, block)
            place += len(section(key, block))
        if tail:
            raise Rejected(place, f"truncated at {place}: the stream ends within a section", None)
        reception.finish(place)
    except Rejected as rejected:
        size, line, stop = rejected.args
        found = [visit for visit in visits_of(reception) if visit[1] == stop][:1] if with_paths else []
        word = line.split(" ")[0]
        return size, "\n".join(["-: " + line, *(f"  {number} {word} {text(key)} {path}" for number, key, path in found)]), 4
    lines, skipped = [], 0
    for number, key, path in visits_of(reception):
        word = reception.unread(key)
        skipped += word is not None
        if word or with_paths and key in reception.missing:
            lines.append(f"  {number} {word or 'missing'} {text(key)}" + f" {path}" * with_paths + "\n")
    absent = f" absent={reception.absent}" if allowed else ""
    visits = reception.visits
    counts = f"visits={visits} kept={visits} sections={len(sections)} bytes={place}"
    return None, f"receive done {counts}{absent}\n{''.join(lines)}total jobs=1 done=1 skips={skipped}", 3 if skipped else 0


# Runs.


def received(room, stream, words, piece, processors=None):
    """The status of a run, its lines, and what it wrote under its name and its part. It may have these processors alone."""
    out, part = room / "a.car", room / "a.car.part"
    for old in (out, part):
        old.unlink(missing_ok=True)
    run = [PROGRAM, "receive", "--no-sync", "--out", out, *words]
    bound = (lambda: os.sched_setaffinity(0, processors)) if processors else None
    child = subprocess.Popen(run, stdin=subprocess.PIPE, stdout=subprocess.DEVNULL, stderr=subprocess.PIPE, preexec_fn=bound)
    try:
        for at in range(0, len(stream), piece):
            os.write(child.stdin.fileno(), stream[at : at + piece])
    except BrokenPipeError:
        pass
    try:
        _, lines = child.communicate(timeout=SECONDS_A_RUN)
    except subprocess.TimeoutExpired:
        child.kill()
        raise Wrong(f"receive {words} took {SECONDS_A_RUN} seconds for {stream.hex()}") from None
    files = [path.read_bytes() if path.exists() else None for path in (out, part)]
    return child.returncode, lines.decode(), *files


def words_of(job, allowed):
    _, _, roots, limit, line = job
    words = ["--root", ",".join(map(text, roots)), "--limit", str(limit), "--selector-hex", line.split(" ")[-1]]
    return words + (["--allow-missing", allowed] if allowed else [])


def judge(room, nodes, job, allowed, sections, piece, tail=b"", base=None, files=(), with_paths=False, more=()):
    """Receives a stream, and compares all of it with the model. Returns whether it was accepted."""
    stream = header(job[2]) + b"".join(section(*pair) for pair in sections) + tail
    size, line, status = told(nodes, job, allowed, sections, tail, base, with_paths)
    wanted = (status, line + "\n", *((stream, None) if size is None else (None, stream[:size])))
    words = [word for file in files for word in ("--with", file)] + ["--paths"] * with_paths + [*more]
    came = received(room, stream, words_of(job, allowed) + words, piece)
    if came != wanted:
        raise Wrong(f"{came} came and {wanted} was wanted of {job[-1]} --allow-missing {allowed}, of {stream.hex()}")
    return size is None


def random_streams(room, seed, graphs):
    """What `get` writes, in pieces, and each change of its sections."""
    streams = accepted = changes = kept = 0
    for number in range(graphs):
        chance = random.Random(f"{seed}-{number}")
        graph, keys = once.random_graph(chance)
        (room / "blocks.car").write_bytes(graph.car())
        tried = once.random_jobs(chance, keys)
        most = None
        try:
            for index, job in enumerate(tried):
                name, selector, roots, limit, _ = job
                _, _, archive = once.told(graph, name, selector, roots, limit, True)
                if index == 0:
                    get = [PROGRAM, "get", "--blocks", room / "blocks.car", *words_of(job, "")]
                    done = subprocess.run(get, capture_output=True, timeout=SECONDS_A_RUN)
                    if done.stdout != archive:
                        raise Wrong(f"another archive of get {job[-1]}, over {graph.car().hex()}")
                sections = sections_of(archive)[1]
                allowed = chance.choice(list(ALLOWED))
                accepted += judge(room, graph.nodes, job, allowed, sections, PIECES[index % 4], with_paths=chance.random() < 0.5)
                streams += 1
                if 1 < len(sections) < 7 and (most is None or len(sections) > len(most[1])):
                    most = job, sections
            if most:
                for allowed in ("", "all"):
                    for changed in changes_of(chance, *most):
                        kept += judge(room, graph.nodes, most[0], allowed, changed, chance.choice(PIECES), with_paths=chance.random() < 0.5)
                        changes += 1
        except Wrong as wrong:
            raise Wrong(f"seed {seed}-{number}: {wrong}") from None
    if not (0 < accepted < streams and kept < changes):
        raise Wrong(f"{accepted} of {streams} streams and {kept} of {changes} changed ones were accepted")
    return f"{streams} streams of random jobs, {accepted} accepted, and {changes} with other sections, {kept} accepted"


def random_bases(room, seed, graphs):
    """What `get --without` writes of random jobs, received with the same base. Where it is accepted, it isn't with one section
    more that the base has."""
    streams = accepted = doubled = 0
    for number in range(graphs):
        chance = random.Random(f"{seed}-{number} base")
        graph, keys = once.random_graph(chance)
        (room / "blocks.car").write_bytes(graph.car())
        try:
            for index, job in enumerate(once.random_jobs(chance, keys)):
                prefers = ["--prefer-sound"] * (chance.random() < 0.4)
                files, base = random_base(room, chance, graph, bool(prefers))
                without = [word for file in files for word in ("--without", file)] + prefers
                get = [PROGRAM, "get", "--blocks", room / "blocks.car", *words_of(job, ""), *without]
                done = subprocess.run(get, capture_output=True, timeout=SECONDS_A_RUN)
                if not done.stdout:
                    continue
                sections = sections_of(done.stdout)[1]
                if any(key in base for key, _ in sections):
                    raise Wrong(f"{job[-1]} has a block of the base, over {graph.car().hex()}")
                allowed = chance.choice(list(ALLOWED))
                streams += 1
                with_base = {"base": base, "files": files, "more": prefers}
                if not judge(room, graph.nodes, job, allowed, sections, PIECES[index % 4], with_paths=chance.random() < 0.5, **with_base):
                    continue
                accepted += 1
                if base:
                    pair = chance.choice(sorted(base.items()))
                    at = chance.randrange(len(sections) + 1)
                    more = sections[:at] + [pair] + sections[at:]
                    doubled += 1
                    if judge(room, graph.nodes, job, allowed, more, chance.choice(PIECES), with_paths=chance.random() < 0.5, **with_base):
                        raise Wrong(f"a block of the base was accepted in {job[-1]}, over {graph.car().hex()}")
        except Wrong as wrong:
            raise Wrong(f"seed {seed}-{number} base: {wrong}") from None
    if not (0 < accepted < streams and doubled):
        raise Wrong(f"{accepted} of {streams} differences were accepted, {doubled} with a block of the base")
    return f"{streams} differences with their bases, {accepted} accepted, {doubled} with a block of the base more"


def random_base(room, chance, graph, any_copy):
    """One or two files of a base, and the blocks in them that are known: of each CID the first copy, if that is sound, or any
    that is."""
    copies = []
    for key, block in sections_of(graph.car())[1]:
        fate = chance.random()
        if fate < 0.15:
            copies.append((key, block + b"!"))
        if fate < 0.5:
            copies.append((key, block))
    chance.shuffle(copies)
    cut = chance.randrange(len(copies) + 1)
    files = []
    for number, part in enumerate((copies[:cut], copies[cut:])[: chance.randrange(1, 3)]):
        file = room / f"base-{number}.car"
        file.write_bytes(header([]) + b"".join(section(*pair) for pair in part))
        files.append(file)
    known = once.Graph()
    known.blocks, known.nodes = {}, graph.nodes
    for file in files:
        for key, block in sections_of(file.read_bytes())[1]:
            if key not in known.blocks or any_copy and known.verdict(key) is not None:
                known.blocks[key] = block
    return files, {key: block for key, block in known.blocks.items() if once.parts(key)[1] != IDENTITY and known.verdict(key) is None}


def changes_of(chance, job, sections):
    """The sections with one left out, doubled, swapped with the next and moved to the end, and with one that nobody asked for
    in each gap."""
    foreign = chance.randbytes(5)
    for at, pair in enumerate(sections):
        before, after = sections[:at], sections[at + 1 :]
        yield before + after
        yield before + [pair, pair] + after
        yield before + after[:1] + [pair] + after[1:]
        yield before + after + [pair]
    for at in range(len(sections) + 1):
        yield sections[:at] + [(cid(RAW, foreign), foreign)] + sections[at:]


def changed_bytes(room, seed, graphs):
    """Small archives with each byte changed: none is accepted, and what is written ends before the part with that byte."""
    runs, chance = 0, random.Random(f"{seed} bytes")
    for job, graph, sections in small_archives(chance, 2):
        stream = header(job[2]) + b"".join(section(*pair) for pair in sections)
        starts = [0, len(header(job[2]))]
        for pair in sections:
            starts.append(starts[-1] + len(section(*pair)))
        for at in range(len(stream)):
            changed = bytearray(stream)
            changed[at] ^= chance.randrange(1, 256)
            begin = max(start for start in starts if start <= at)
            came = received(room, bytes(changed), words_of(job, ""), chance.choice(PIECES))
            # A header that can't be read is no CARv1 file, and nothing is left of that.
            wanted = [(4, bytes(changed[:begin]))] + ([(2, None)] if begin == 0 else [])
            if (came[0], came[3]) not in wanted or came[2] is not None or f" at {begin}: " not in came[1]:
                raise Wrong(f"{came} of {job[-1]}, of {changed.hex()}, which is changed at {at}")
            runs += 1
    return f"{runs} changed bytes"


def cut_streams(room, seed, graphs):
    """A small archive that is cut at each byte after its header."""
    runs, chance = 0, random.Random(f"{seed} cuts")
    for job, graph, sections in small_archives(chance, 1):
        for count in range(len(sections)):
            whole = section(*sections[count])
            for size in range(len(whole)):
                judge(room, graph.nodes, job, "", sections[:count], chance.choice(PIECES), whole[:size])
                runs += 1
    return f"{runs} cut streams"


def small_archives(chance, count):
    """So many jobs whose whole archives have two or three sections and no skip, with their graphs."""
    while count:
        graph, keys = once.random_graph(chance)
        for job in once.random_jobs(chance, keys):
            name, selector, roots, limit, _ = job
            end, lines, archive = once.told(graph, name, selector, roots, limit, True)
            sections = sections_of(archive)[1]
            if end == "done" and len(lines) == 1 and 1 < len(sections) < 4 and len(archive) < 400 and len(roots) == 1:
                yield job, graph, sections
                count -= 1
                break


def random_paths(room, seed, graphs):
    """Paths through random graphs: what `get` writes of one is received, and where one leads no further, the blocks on it are
    rejected with the line of `get`."""
    runs = 0
    for number in range(graphs):
        graph = paths.Graph(random.Random(f"{seed} {number}"))
        file = room / "graph.car"
        file.write_bytes(graph.file())
        for segments, way, why in paths.paths_of(graph):
            if not segments:
                continue
            path = "/".join([text(graph.root), *map(paths.escaped, segments)]) + "/" * (segments[-1:] == [b""])
            words = ["--root", path, "--allow-missing", "all"]
            scope = graph.chance.choice([[], ["--scope", "block"]])
            if why:
                whole = [key for key in way if key not in graph.damaged]
                stream = paths.archive_of(graph, whole)
                line = why.replace("damaged", "missing")
                came = received(room, stream, [*words, *scope], graph.chance.choice(PIECES))
                if came[0] != 4 or came[2] is not None or not came[1].startswith(("--root: " + line, "-: missing at ")):
                    raise Wrong(f"{came} of {path}, which has {why}, of {stream.hex()}, graph {number}")
            else:
                get = [PROGRAM, "get", "--blocks", file, "--root", path, *scope]
                stream = subprocess.run(get, capture_output=True, timeout=SECONDS_A_RUN).stdout
                came = received(room, stream, [*words, *scope], graph.chance.choice(PIECES))
                if came[0] != 0 or came[2] != stream:
                    raise Wrong(f"{came} of {path} {scope}, of {stream.hex()}, graph {number}")
            runs += 1
    return f"{runs} paths"


def many_threads(room, seed, graphs):
    """A list of leaves that several threads hash: the whole archive, with each section damaged, and with each leaf twice. By one
    processor and by all, in small pieces and at once, the same bytes are written, and the same line."""
    chance = random.Random(f"{seed} threads")
    leaves = [chance.randbytes(chance.choice((1, 5_000, 40_000, 90_000))) for _ in range(16)]
    keys = [cid(RAW, leaf) for leaf in leaves]
    node = bytes([0x80 + 16]) + b"".join(b"\xd8\x2a\x58" + bytes([len(key) + 1]) + b"\0" + key for key in keys)
    root = cid(DAG_CBOR, node)
    sections = [(root, node), *zip(keys, leaves)]
    words, runs = ["--root", text(root)], 0
    everywhere = os.sched_getaffinity(0)

    def expect(changed, word, at):
        nonlocal runs
        stream = header([root]) + b"".join(section(*pair) for pair in changed)
        if word:
            place = len(header([root])) + sum(len(section(*pair)) for pair in changed[:at])
            wanted = (4, f"-: {word[0]} at {place}: {text(changed[at][0])}{word[1]}\n", None, stream[:place])
        else:
            counts = f"visits=17 kept=17 sections=17 bytes={len(stream)}"
            wanted = (0, f"receive done {counts}\ntotal jobs=1 done=1 skips=0\n", stream, None)
        for processors in ({min(everywhere)}, everywhere):
            for piece in (4096, len(stream)):
                came = received(room, stream, words, piece, processors)
                if came != wanted:
                    raise Wrong(f"{came[:2]} came and {wanted[:2]} was wanted, by processors {processors} in pieces of {piece}")
                runs += 1

    expect(sections, None, None)
    for at, (key, block) in enumerate(sections):
        place = chance.randrange(len(block))
        damaged = block[:place] + bytes([block[place] ^ 1]) + block[place + 1 :]
        expect(sections[:at] + [(key, damaged)] + sections[at + 1 :], ("damaged", ""), at)
        if at:
            expect(sections[: at + 1] + sections[at:], ("repeated", ": it came before; ask for dups=n"), at + 1)
    return f"{runs} streams by one processor and by {len(everywhere)}"


def main():
    parser = argparse.ArgumentParser(description=__doc__)
    parser.add_argument("--seed", default="1")
    parser.add_argument("--graphs", type=int, default=40, help="how many random graphs")
    words = parser.parse_args()
    answers = []
    with tempfile.TemporaryDirectory(prefix="receive-") as room:
        for part in (random_streams, random_bases, changed_bytes, cut_streams, random_paths, many_threads):
            try:
                answers.append(part(pathlib.Path(room), words.seed, words.graphs))
            except Wrong as wrong:
                print(f"tests/receive.py: FAILED: {part.__name__}: {wrong}", file=sys.stderr)
                return 1
    print(f"tests/receive.py: passed: {'; '.join(answers)}")
    return 0


if __name__ == "__main__":
    sys.exit(main())
