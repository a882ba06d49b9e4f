#!/usr/bin/env python3
"""Prints random_steps.cases: random selectors, each stepped along a random path.

    ./random_steps.py > random_steps.cases

What is wanted is decided by the relation of the specification alone: a selector stands inside its recursions,
all of them with their depths, and a path is entered where one of the rules leads along it. The same seed gives
the same file.
"""

import argparse
import random

KEYS = ["a", "b", "bb", "c"]
LIMITS = [None, 0, 1, 2, 3, 4]


# A selector is a tuple: its form, and what the form has.


def matcher(chance, left, guarded):
    return ("matcher",)


def edge(chance, left, guarded):
    return ("edge",)


def every(chance, left, guarded):
    return ("all", selector(chance, left - 1, behind(guarded)))


def fields(chance, left, guarded):
    names = chance.sample(KEYS, chance.randint(0, 3))
    return ("fields", {name: selector(chance, left - 1, behind(guarded)) for name in names})


def index(chance, left, guarded):
    return ("index", chance.randint(-1, 3), selector(chance, left - 1, behind(guarded)))


def within(chance, left, guarded):
    return ("range", chance.randint(-2, 2), chance.randint(-1, 5), selector(chance, left - 1, behind(guarded)))


def recursive(chance, left, guarded):
    return ("recursive", chance.choice(LIMITS), selector(chance, left - 1, False))


def union(chance, left, guarded):
    return ("union", [selector(chance, left - 1, guarded) for _ in range(chance.randint(0, 4))])


def behind(guarded):
    """Whether an edge may be after a step: not outside all recursions, where `guarded` is None."""
    return None if guarded is None else True


def selector(chance, left, guarded):
    """A selector that nests at most `left` deep, and has edges only where they may be."""
    forms = [matcher]
    if guarded:
        forms += [edge] * (3 if left > 1 else 12)
    if left > 1:
        forms += [every] * 6 + [fields] * 3 + [index, within] + [recursive] * 4 + [union] * 6
    return chance.choice(forms)(chance, left, guarded)


# Which paths are entered. The recursions round a selector are pairs of a sequence and a depth, the innermost first.


def enters(here, around, path):
    form = here[0]
    if form == "recursive":
        return enters(here[2], ((here[2], here[1]), *around), path)
    if form == "union":
        return any(enters(member, around, path) for member in here[1])
    if form == "edge":
        return enters_again(around, path)
    if not path:
        return True
    child = leads_to(here, path[0])
    return child is not None and enters(child, around, path[1:])


def enters_again(around, path):
    sequence, depth = around[0]
    if depth is None:
        return enters(sequence, around, path)
    return depth >= 2 and enters(sequence, ((sequence, depth - 1), *around[1:]), path)


def leads_to(here, step):
    """The selector after a step from a matcher or an explorer, if there is one."""
    form = here[0]
    if form == "all":
        return here[1]
    if form == "fields":
        return here[1].get(step) if isinstance(step, str) else None
    if form == "index" and here[1] == step:
        return here[2]
    if form == "range" and isinstance(step, int) and here[1] <= step < here[2]:
        return here[3]
    return None


# How a selector is written, in diagnostic notation.


def map_of(entries):
    """A map, its keys the shorter first and those of one length by their bytes."""
    rising = sorted(entries, key=lambda key: (len(key), key))
    return "{ " + ", ".join(f'"{key}": {entries[key]}' for key in rising) + " }" if entries else "{ }"


def written(here):
    form, *parts = here
    if form == "matcher":
        return map_of({".": map_of({})})
    if form == "edge":
        return map_of({"@": map_of({})})
    if form == "all":
        return map_of({"a": map_of({">": written(parts[0])})})
    if form == "fields":
        return map_of({"f": map_of({"f>": map_of({name: written(part) for name, part in parts[0].items()})})})
    if form == "index":
        return map_of({"i": map_of({"i": parts[0], ">": written(parts[1])})})
    if form == "range":
        return map_of({"r": map_of({"^": parts[0], "$": parts[1], ">": written(parts[2])})})
    if form == "recursive":
        limit = {"none": map_of({})} if parts[0] is None else {"depth": parts[0]}
        return map_of({"R": map_of({"l": map_of(limit), ":>": written(parts[1])})})
    return map_of({"|": "[ " + ", ".join(map(written, parts[0])) + " ]" if parts[0] else "[ ]"})


# Cases.


def path_of(chance, root, most):
    """A path that is entered as far as steps are found by chance, and whether each of its steps is."""
    path, entered = [], []
    while len(path) < most and (not entered or entered[-1]):
        for _ in range(4):
            step = chance.choice([0, 1, 2, 3, *KEYS])
            if enters(root, (), [*path, step]):
                break
        path.append(step)
        entered.append(enters(root, (), path))
    return path, entered


def main():
    parser = argparse.ArgumentParser(description=__doc__, formatter_class=argparse.RawDescriptionHelpFormatter)
    parser.add_argument("--count", type=int, default=1000)
    parser.add_argument("--seed", type=int, default=1)
    words = parser.parse_args()
    chance = random.Random(words.seed)
    print("# Made by random_steps.py: random selectors along random paths, by the rules of the specification.")
    print("example random selectors")
    cases = []
    while len(cases) < words.count:
        root = selector(chance, chance.randint(3, 8), None)
        path, entered = path_of(chance, root, chance.randint(1, 10))
        # None that is long to write, and few that enter next to nothing.
        if len(written(root)) > 500 or sum(entered) < 3 and chance.random() < 0.9:
            continue
        answers = " ".join("1" if is_entered else "0" for is_entered in entered)
        case = f"step {'/'.join(map(str, path))} {written(root)} = {answers}"
        if case not in cases:
            cases.append(case)
    print("\n".join(cases))


if __name__ == "__main__":
    main()
