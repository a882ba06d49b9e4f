#!/usr/bin/env python3
"""Prints the lines of the text report that the objects on standard input stand for.

Each line of the input is one object of JSON, in UTF-8 and without blanks, with each key once and integers alone as numbers.
The place of an archive is printed after the job's line: `  file PATH` or `  part PATH`.
"""
import json
import sys


def unique(members):
    keys = [key for key, _ in members]
    assert len(keys) == len(set(keys)), f"a key is there twice: {keys}"
    return dict(members)


def no_float(text):
    raise ValueError(f"{text} isn't an integer")


def of_job(it):
    known = f" known={it.pop('known')}" if "known" in it else ""
    absent = f" absent={it.pop('absent')}" if "absent" in it else ""
    yield "{job} {end} visits={visits} kept={kept} sections={sections} bytes={bytes}".format(**it) + known + absent
    yield from (f"  {key} {it[key]}" for key in ("file", "part") if key in it)
    for skip in it["skips"]:
        yield "  {visit} {verdict} {cid}".format(**skip)


def of_rejected(it):
    yield "{job} {end} sections={sections} bytes={bytes}".format(**it)
    yield from (f"  {key} {it[key]}" for key in ("file", "part") if key in it)
    if "fault" in it:
        cids = (f" {key} {it['fault'][key]}" for key in ("cid", "expected") if key in it["fault"])
        yield "  fault {place} {reason}".format(**it["fault"]) + "".join(cids)


def cause_of(finding):
    return ": {cause} at {offset}".format(**finding) if "cause" in finding else ""


def of_file(it):
    assert it["outcome"] in ("sound", "incomplete", "inexact", "unsupported", "broken"), it["outcome"]
    line = "{file} {outcome} sections={sections} bytes={bytes}".format(**it)
    line += "" if it["outcome"] == "sound" else " unsound={unsound} skips={skips}".format(**it)
    yield line + (f" absent={it['absent']}" if "absent" in it else "")
    for finding in it["findings"]:
        if "section" in finding:
            yield "  section {section} {verdict} {cid}".format(**finding) + cause_of(finding)
        else:
            yield "  link {link} {cid}".format(**finding) + cause_of(finding)
    if it["more"]:
        yield f"  and {it['more']} more (--all prints each)"
    if "limit" in it:
        yield "  limit"
    if "exact" in it:
        yield "  exact {place} {reason}".format(**it["exact"]) + (f" {it['exact']['cid']}" if "cid" in it["exact"] else "")


def of_summary(it):
    yield f"version {it['version']}"
    if "index" in it:
        yield "index yes" if it["index"] else "index no"
    yield f"roots {len(it['roots'])}"
    yield from (f"root {root}" for root in it["roots"])
    yield from (f"{key} {it[key]}" for key in ("bytes", "sections", "repeated"))
    yield from (f"codec {name} {count}" for name, count in it["codecs"].items())
    yield from (f"hash {name} {count}" for name, count in it["hashes"].items())
    yield from (f"{key} {it[key]}" for key in ("smallest", "median", "greatest", "memory") if key in it)


def of_fault(it):
    field = f", {it['field']}" if "field" in it else ""
    yield f"line {it['line']}{field}: {it['fault']}"


def lines(it):
    match it:
        case {"job": _, "visits": _}:
            return of_job(it)
        case {"job": "receive"}:
            return of_rejected(it)
        case {"total": total}:
            return ["total jobs={jobs} done={done} skips={skips}".format(**total)]
        case {"outcome": _}:
            return of_file(it)
        case {"version": _}:
            return of_summary(it)
        case {"line": _}:
            return of_fault(it)
        case {"size": _}:
            return ["{place} {size} {cid}".format(**it)]
        case {"is": _}:
            return ["{file}: {fault} at {place}: {is}".format(**it)]
        # Its line is on standard error.
        case {"error": _, "message": _}:
            return []
    raise ValueError(f"an object of no report: {it}")


def main():
    text = sys.stdin.buffer.read().decode("utf-8")
    assert not text or text.endswith("\n"), "the last line has no end"
    for line in text.splitlines():
        it = json.loads(line, object_pairs_hook=unique, parse_float=no_float, parse_constant=no_float)
        assert json.dumps(it, separators=(",", ":"), ensure_ascii=False) == line, f"not as it is documented: {line}"
        for line in lines(it):
            print(line)


sys.stdout.reconfigure(encoding="utf-8")
main()
