#!/usr/bin/env python3
"""Compares include/ix_export.h with the source of the library: each exported function with its parameters, and each struct.

The types are turned into those of C by the rules of the toolchain: an allocator takes nothing, a slice is a pointer and a
length, a reference is a pointer. Ends with status 1 and a line for each difference."""
import pathlib
import re
import sys

TOP = pathlib.Path(__file__).resolve().parents[2]
STRUCTS = {"Handle": "ix_handle", "Counts": "ix_counts", "SkipRecord": "ix_skip", "CheckCounts": "ix_check"}
NUMBERS = {"u8": "uint8_t", "u32": "uint32_t", "u64": "uint64_t", "usize": "size_t", "bool": "bool"}


def spaced(text):
    return re.sub(r"\s*(\*)\s*", r" \1", re.sub(r"\s+", " ", text)).strip()


def in_c(kind):
    """The types of C for a parameter of this type."""
    kind = kind.strip()
    if kind == "Global":
        return []
    if kind in NUMBERS:
        return [NUMBERS[kind]]
    if kind in ("&[u8]", "&mut [u8]"):
        return ["uint8_t *" if "mut" in kind else "const uint8_t *", "size_t"]
    if kind == "&mut *const u8":
        return ["const uint8_t **"]
    name = kind.removeprefix("&mut ")
    if kind.startswith("&mut ") and (name in STRUCTS or name in NUMBERS):
        return [STRUCTS.get(name) or NUMBERS[name]]  # with a star, below
    sys.exit(f"tests/embed/header.py: no type of C is known for {kind}")


def of_source():
    text = (TOP / "crates/ix_capi/src/lib.rt").read_text()
    found = {}
    for name, params, result in re.findall(r'pub extern "C" fn (\w+)\((.*?)\)(?: -> (\w+))?\s*\n', text, re.S):
        kinds = []
        for param in filter(None, (it.strip() for it in re.split(r",\s*", params))):
            kind = param.split(":", 1)[1].strip()
            star = " *" if kind.startswith("&mut ") and "[" not in kind and "*" not in kind else ""
            kinds += [spaced(it + star) for it in in_c(kind)]
        found[name] = (NUMBERS[result] if result else "void", kinds)
    return found


def of_header():
    text = re.sub(r"/\*.*?\*/", "", (TOP / "include/ix_export.h").read_text(), flags=re.S)
    found = {}
    for result, name, params in re.findall(r"^(\w+) (ix_\w+)\((.*?)\);", text, re.S | re.M):
        kinds = [] if params.strip() == "void" else [spaced(re.sub(r"\w+$", "", it.strip())) for it in params.split(",")]
        found[name] = (result, kinds)
    structs = {}
    for body, name in re.findall(r"typedef struct \w+ \{(.*?)\} (\w+);", text, re.S):
        structs[name] = [spaced(re.sub(r"(\w+)$", "", it)) for it in filter(None, (it.strip() for it in body.split(";")))]
    return found, structs


def structs_of_source():
    found = {}
    for path in sorted((TOP / "crates/ix_capi/src").glob("*.rt")):
        for name, body in re.findall(r"#\[repr\(C\)\](?:\n#\[.*?\])*\npub struct (\w+) \{(.*?)\n\}", path.read_text(), re.S):
            fields = re.findall(r"^    (?:pub )?(\w+): (.*?),$", body, re.M)
            kinds = [NUMBERS.get(kind) or {"*mut u8": "void *", "RawBox": "void *"}[kind] for _, kind in fields]
            found[STRUCTS.get(name, name)] = [spaced(it) for it in kinds]
    return found


functions, (declared, structs) = of_source(), of_header()
wrong = [f"{it}: {functions.get(it)} in the source, {declared.get(it)} in the header"
         for it in sorted(functions.keys() | declared.keys()) if functions.get(it) != declared.get(it)]
made = structs_of_source()
wrong += [f"struct {it}: {made.get(it)} in the source, {structs[it]} in the header" for it in structs if made.get(it) != structs[it]]
if wrong or len(functions) < 10:
    sys.exit("\n".join(["tests/embed/header.py: FAILED", *wrong]))
