#!/usr/bin/env python3
"""Exports an AT Protocol repository of 2,000 records, which links its pictures out of itself by design. The generator makes a
signed commit, the tree of its keys (a Merkle search tree) and records, of which many link a blob that is in no file. `get
--allow-missing raw` ends with status 0 and counts as absent what the generator counts, and its archive is the whole file in
the order of a walk; without the option each link to a blob is a `missing` skip. A damaged record is a skip either way.
The tree of the keys alone, which a selector takes, is sound by `verify --selector --exact` with that selector; the whole file
isn't exactly that. `--records` makes another number, `--keep FILE` leaves the repository there. Ends with status 1 at the first run that is wrong.
"""

import argparse
import base64
import hashlib
import json
import pathlib
import random
import re
import subprocess
import sys
import tempfile

TESTS = pathlib.Path(__file__).resolve().parent
sys.path[:0] = [str(TESTS)]
sys.dont_write_bytecode = True
from hostile import ALL, DAG_CBOR, PROGRAM, RAW, Wrong, cid, header, section, text
from show import Link, Text, encoded

# The commit and the tree of the keys, without the records.
TREE = {"f": {"f>": {"l": {"@": {}}, "e": {"a": {">": {"f": {"f>": {"t": {"@": {}}}}}}}}}}
TREE = json.dumps({"f": {"f>": {"data": {"R": {"l": {"none": {}}, ":>": TREE}}}}})

DID = "did:plc:ewvi7nxzyoun6zhxrhs64oiz"
DIGITS = "234567abcdefghijklmnopqrstuvwxyz"
WORDS = "a photo of the sea at dawn with two boats and one very small dog on the pier".split()


def node_of(value):
    """A value of Python as one that `encoded` takes: texts and maps are its own."""
    if isinstance(value, str):
        return Text(value.encode())
    if isinstance(value, list):
        return [node_of(member) for member in value]
    if isinstance(value, dict):
        return tuple((key.encode(), node_of(member)) for key, member in value.items())
    return value


def links_of(value):
    """The CIDs that a value links, in the order of its encoding."""
    if isinstance(value, Link):
        return [value.cid]
    if isinstance(value, list):
        return [key for member in value for key in links_of(member)]
    if isinstance(value, dict):
        entries = sorted(value.items(), key=lambda entry: (len(entry[0].encode()), entry[0].encode()))
        return [key for _, member in entries for key in links_of(member)]
    return []


def tid(number):
    """A key by time: 13 digits of base32, which sort as the numbers do."""
    return "".join(DIGITS[number >> 5 * place & 31] for place in reversed(range(13)))


# Trees of these keys, each with one value, and the CIDs of their roots, as the tests of the protocol's own library have them.
VALUE = "bafyreie5cvv4h45feadgeuwhbcutmh6t2ceseocckahdoe6uat64zmz454"
TREES = (
    ("3jqfcqzm3fo2j", "bafyreibj4lsc3aqnrvphp5xmrnfoorvru4wynt6lwidqbm2623a6tatzdu"),
    ("3jqfcqzm3fx2j", "bafyreih7wfei65pxzhauoibu3ls7jgmkju4bspy4t2ha2qdjnzqvoy33ai"),
    (
        "3jqfcqzm3fp2j 3jqfcqzm3fr2j 3jqfcqzm3fs2j 3jqfcqzm3ft2j 3jqfcqzm4fc2j",
        "bafyreicmahysq4n6wfuxo522m6dpiy7z7qzym3dzs756t5n7nfdgccwq7m",
    ),
)


def depth_of(key):
    """How deep in the tree a key is, from its leaves: the pairs of zero bits with which its SHA-256 begins."""
    digest = int.from_bytes(hashlib.sha256(key).digest(), "big")
    return (256 - digest.bit_length()) // 2


class Repository:
    """A repository: its blocks by their CIDs, what each of them links, and the CID of its commit."""

    def __init__(self, records, chance):
        self.chance = chance
        self.blocks, self.links, self.below = {}, {}, {}
        self.blobs = [cid(RAW, b"blob %d" % number) for number in range(records // 3 + 2)]
        made = {}
        clock = 1_700_000_000_000_000 << 10
        for number in range(records - 1):
            clock += chance.randrange(1 << 30, 1 << 40)
            key = f"app.bsky.feed.{self.kind(number)}/{tid(clock)}".encode()
            # Some keys have the record of another.
            made[key] = chance.choice(list(made.values())) if number % 40 == 39 else self.keep(self.record(number))
        made[b"app.bsky.actor.profile/self"] = self.keep(self.profile())
        self.records = list(made.values())
        tree = self.tree_of(made)
        commit = {"did": DID, "version": 3, "data": Link(tree), "rev": tid(clock), "prev": None}
        # No one checks this signature, so it is any 64 bytes.
        signature = hashlib.sha512(encoded(node_of(commit))).digest()
        self.root = self.keep({**commit, "sig": signature})
        self.below[self.root] = [tree]

    def kind(self, number):
        return "like" if number % 5 == 4 else "post"

    def record(self, number):
        time = f"2026-{number % 12 + 1:02}-{number % 28 + 1:02}T08:{number % 60:02}:00.000Z"
        if self.kind(number) == "like":
            # What it likes is a text, and no link.
            other = text(cid(DAG_CBOR, b"%d" % number))
            subject = {"uri": f"at://{DID}/app.bsky.feed.post/{tid(number)}", "cid": other}
            return {"$type": "app.bsky.feed.like", "subject": subject, "createdAt": time}
        words = f"{number}: {' '.join(self.chance.sample(WORDS, 6))}"
        post = {"$type": "app.bsky.feed.post", "text": words, "createdAt": time, "langs": ["en"]}
        if self.chance.random() < 0.4:
            images = [{"alt": "", "image": self.blob()} for _ in range(self.chance.randrange(1, 5))]
            post["embed"] = {"$type": "app.bsky.embed.images", "images": images}
        return post

    def profile(self):
        pictures = {"avatar": self.blob(), "banner": self.blob()}
        return {"$type": "app.bsky.actor.profile", "displayName": "A photographer", **pictures}

    def blob(self):
        """A link to a picture, which may be that of another record too."""
        size = self.chance.randrange(1 << 20)
        return {"$type": "blob", "ref": Link(self.chance.choice(self.blobs)), "mimeType": "image/jpeg", "size": size}

    def tree_of(self, made):
        """The CID of the tree of these keys and the CIDs of their records."""
        items = [(key, made[key], depth_of(key)) for key in sorted(made)]
        return self.tree(items, max(depth for _, _, depth in items))

    def tree(self, items, layer):
        """The CID of the tree of these keys, whose greatest depth is at most the layer, or None for no keys."""
        if not items:
            return None
        places = [place for place, item in enumerate(items) if item[2] == layer]
        ends = places[1:] + [len(items)]
        entries, before = [], b""
        for place, end in zip(places, ends):
            key, value, _ = items[place]
            shared = shared_by(before, key)
            below = self.tree(items[place + 1 : end], layer - 1)
            entries.append({"p": shared, "k": key[shared:], "v": Link(value), "t": below and Link(below)})
            before = key
        left = self.tree(items[: places[0]] if places else items, layer - 1)
        key = self.keep({"l": left and Link(left), "e": entries})
        self.below[key] = [entry["t"].cid for entry in entries if entry["t"]] + ([left] if left else [])
        return key

    def keep(self, value):
        block = encoded(node_of(value))
        key = cid(DAG_CBOR, block)
        self.blocks[key] = block
        self.links[key] = links_of(value)
        return key

    def car(self):
        keys = list(self.blocks)
        self.chance.shuffle(keys)
        return header([self.root]) + b"".join(section(key, self.blocks[key]) for key in keys)


def shared_by(one, other):
    """How many bytes two keys share at their beginning."""
    count = 0
    while count < min(len(one), len(other)) and one[count] == other[count]:
        count += 1
    return count


class Walk:
    """A walk over everything below the commit, which goes into a block once, or at every link to it."""

    def __init__(self, repository, once=True, lacking=(), links=None):
        links = links or repository.links
        self.visits, self.sections, self.skipped = 0, {}, []
        stack = [repository.root]
        expanded = set()
        while stack:
            key = stack.pop()
            self.visits += 1
            if key not in repository.blocks or key in lacking:
                self.skipped.append(key)
                continue
            self.sections.setdefault(key, repository.blocks[key])
            if not (once and key in expanded):
                expanded.add(key)
                stack += reversed(links[key])
        self.archive = header([repository.root]) + b"".join(section(*entry) for entry in self.sections.items())

    def line(self, name, absent=None):
        """The line of the job in the report."""
        counts = f"visits={self.visits} kept={self.visits} sections={len(self.sections)} bytes={len(self.archive)}"
        return f"{name} done {counts}" + ("" if absent is None else f" absent={absent}")


def run(words, status):
    """Runs the program, and returns its report."""
    done = subprocess.run([PROGRAM, *words], capture_output=True, text=True)
    if done.returncode != status:
        raise Wrong(f"{' '.join(words)}: status {done.returncode} and not {status}: {done.stderr[:300]}")
    if words[0] != "get":
        return done.stdout
    # An archive that lacks blocks replaces that of the case before, and a line says so.
    return re.sub(r"^warning: .*\n", "", done.stderr)


def same(what, came, wanted):
    if came != wanted:
        raise Wrong(f"{what}: {came[:300]!r}, and not {wanted[:300]!r}")


def report(walk, skips, absent=None, name="get"):
    """The report of one job with these skips, each a verdict and a CID by the number of its visit."""
    lines = [walk.line(name, absent), *(f"  {verdict} {text(key)}" for verdict, key in skips)]
    return [*lines, f"total jobs=1 done=1 skips={len(skips)}"]


def without_numbers(told):
    """The lines of a report, without the numbers of visits."""
    return [f"  {' '.join(line.split()[1:])}" if line.startswith("  ") else line for line in told.splitlines()]


def judge(repository, room):
    """Judges the runs over a repository and what they write."""
    file, out = f"{room}/repository.car", f"{room}/out.car"
    pathlib.Path(file).write_bytes(repository.car())
    walk = Walk(repository)
    if set(walk.sections) != set(repository.blocks) or not len(set(walk.skipped)) < len(walk.skipped) < walk.visits:
        raise Wrong("the generator's repository isn't all below its commit, or no blob is linked twice")
    missing = [("missing", key) for key in walk.skipped]
    get = ["get", "--blocks", file, "--root", text(repository.root), "--out", out, "--no-sync"]
    for which, status, skips, absent in (
        (["--allow-missing", "raw"], 0, [], len(missing)),
        (["--allow-missing", "raw,dag-cbor"], 0, [], len(missing)),
        (["--allow-missing", "all"], 0, [], len(missing)),
        (["--allow-missing", "dag-cbor"], 3, missing, 0),
        ([], 3, missing, None),
    ):
        told = run([*get, *which], status)
        same(" ".join(which) or "without the option", without_numbers(told), report(walk, skips, absent))
        same("the archive", pathlib.Path(out).read_bytes(), walk.archive)
    same("--quiet", run([*get, "--allow-missing", "raw", "--quiet"], 0), "")
    same("verify --blocks-only", run(["verify", "--blocks-only", out], 0).split()[1], "sound")
    same("verify", run(["verify", out], 3).split()[1], "incomplete")
    sound = f"{out} sound sections={len(walk.sections)} bytes={len(walk.archive)} absent={len(missing)}\n"
    same("verify --allow-missing", run(["verify", "--allow-missing", "raw", out], 0), sound)
    judge_jobs(repository, room, file, walk)
    judge_tree(repository, room, [*get, "--selector", TREE], walk)


def judge_jobs(repository, room, file, walk):
    """Judges the same of jobs, at every link too, as text and as JSON."""
    jobs = f"{room}/jobs"
    pathlib.Path(jobs).write_text(f"a {text(repository.root)} 1000000 {ALL}\n")
    each = Walk(repository, once=False)
    if len(each.skipped) <= len(walk.skipped):
        raise Wrong("no record of the generator with a blob is under two keys")
    words = ["jobs", "--blocks", file, "--jobs", jobs, "--out", room, "--allow-missing", "raw"]
    for way, wanted in ((["--once"], walk), ([], each), (["--once", "--part", "1/1"], walk)):
        absent = len(wanted.skipped)
        same(f"jobs {way}", without_numbers(run([*words, *way], 0)), report(wanted, [], absent, "a"))
        same("the archive of a job", pathlib.Path(f"{room}/a.car").read_bytes(), walk.archive)
        told = json.loads(run([*words, *way, "--json"], 0).splitlines()[0])
        same("JSON", (told["absent"], told["skips"]), (absent, []))
    same("jobs --quiet", run([*words, "--once", "--quiet"], 0), "")


def judge_tree(repository, room, get, whole):
    """Judges the tree of the keys alone, and what `verify` says of it and of the whole."""
    out = f"{room}/out.car"
    walk = Walk(repository, links=repository.below)
    if not 1 < len(walk.sections) < len(whole.sections) / 2:
        raise Wrong("the generator's repository is all tree, or has none")
    same("the tree", without_numbers(run(get, 0)), report(walk, []))
    same("the archive of the tree", pathlib.Path(out).read_bytes(), walk.archive)
    line = f"{out} {{}} sections={len(walk.sections)} bytes={len(walk.archive)}"
    for words in ([], ["--exact"]):
        same(f"verify {words}", run(["verify", out, "--selector", TREE, *words], 0), f"{line.format('sound')}\n")
    told = run(["verify", out, "--exact"], 3).splitlines()[0]
    same("verify with all below", told.split(" skips=")[0], f"{line.format('incomplete')} unsound=0")
    pathlib.Path(out).write_bytes(whole.archive)
    line = f"{out} {{}} sections={len(whole.sections)} bytes={len(whole.archive)}"
    same("verify of the whole", run(["verify", out, "--selector", TREE], 0), f"{line.format('sound')}\n")
    place = len(header([repository.root]))
    for key, block in whole.sections.items():
        if key not in walk.sections:
            break
        place += len(section(key, block))
    told = run(["verify", out, "--selector", TREE, "--exact"], 3)
    same("verify --exact of it", told, f"{line.format('inexact')} unsound=0 skips=0\n  exact {place} surplus {text(key)}\n")


def judge_damage(repository, room):
    """Judges what is told of a damaged record, of one that is missing, and of a commit that is."""
    with_blobs = [key for key in repository.records if repository.links[key]]
    key, lost = with_blobs[len(with_blobs) // 2], with_blobs[len(with_blobs) // 3]
    file = f"{room}/damaged.car"
    get = ["get", "--blocks", file, "--root", text(repository.root), "--out", f"{room}/damaged.out", "--no-sync"]
    sections = {one: section(one, block) for one, block in repository.blocks.items()}
    sections[key] = section(key, repository.blocks[key][:-1] + b"\0")
    del sections[lost]
    pathlib.Path(file).write_bytes(header([repository.root]) + b"".join(sections.values()))
    walk = Walk(repository, lacking=(key, lost))
    verdicts = {key: "damaged", lost: "missing"}
    for which, left in (("raw", (key, lost)), ("all", (key,))):
        skips = [(verdicts[one], one) for one in walk.skipped if one in left]
        told = run([*get, "--allow-missing", which], 3)
        absent = len(walk.skipped) - len(skips)
        same(f"a damaged record with {which}", without_numbers(told), report(walk, skips, absent))
        same("the archive without it", pathlib.Path(f"{room}/damaged.out").read_bytes(), walk.archive)
    pathlib.Path(file).write_bytes(header([repository.root]))
    told = run([*get, "--allow-missing", "all", "--partial"], 4)
    line = f"get done visits=1 kept=1 sections=0 bytes={len(header([repository.root]))} absent=0"
    skipped = [line, f"  0 missing {text(repository.root)}", "total jobs=1 done=1 skips=1"]
    same("without the commit", told.splitlines()[-3:], skipped)


def judge_trees():
    """Judges the generator by trees whose roots are known."""
    letters = VALUE[1:].upper()
    value = base64.b32decode(letters + "=" * (-len(letters) % 8))
    for keys, root in TREES:
        made = {b"com.example.record/" + key.encode(): value for key in keys.split()}
        same(f"the tree of {keys}", text(Repository(10, random.Random(1)).tree_of(made)), root)


def judge_words(room):
    """Judges words that name no codec."""
    for which, word in (("rwa", "rwa"), ("raw,", ""), ("raw,dag-pb,all", "dag-pb"), ("", ""), ("RAW", "RAW")):
        get = [PROGRAM, "get", "--blocks", f"{room}/repository.car", "--allow-missing", which]
        done = subprocess.run(get, capture_output=True, text=True)
        if done.returncode != 2 or f"'{word}' is none of raw, dag-cbor and all" not in done.stderr:
            raise Wrong(f"--allow-missing {which!r}: status {done.returncode}: {done.stderr[:300]}")


def main():
    parser = argparse.ArgumentParser(description=__doc__)
    parser.add_argument("--records", type=int, default=2_000)
    parser.add_argument("--keep", type=pathlib.Path)
    words = parser.parse_args()
    repository = Repository(words.records, random.Random(1))
    if words.keep:
        words.keep.write_bytes(repository.car())
    with tempfile.TemporaryDirectory(prefix="repository-") as room:
        try:
            judge_trees()
            judge(repository, room)
            judge_damage(repository, room)
            judge_words(room)
        except Wrong as wrong:
            print(f"tests/at_repository.py: FAILED: {wrong}", file=sys.stderr)
            return 1
    print(f"tests/at_repository.py: {words.records} records in {len(repository.blocks)} blocks passed")
    return 0


if __name__ == "__main__":
    sys.exit(main())
