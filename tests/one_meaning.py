#!/usr/bin/env python3
"""Checks that each word of specs, and each type that more than one file sees, is defined in one place.

Usage: tests/one_meaning.py [TOP]

Prints a line for each word or type that is defined more than once. The status is 1 if there is one.
A word of specs may have the name of a function: it says what that function returns.
"""
import collections, pathlib, re, sys

TOP = pathlib.Path(sys.argv[1] if len(sys.argv) > 1 else __file__).resolve()
TOP = TOP if TOP.is_dir() else TOP.parent.parent
ASSOCIATED = "the associated type that a trait of std requires"
NAMED = "`plist::dictionary` names that of `plist_pairs`, with its values"
SEEN = "what contracts see of the type"
PROGRAM = "programs have their own types of this name, which no other crate sees"
# the names that may be defined twice, each with the crates that define it, and the reason
ALLOWED = {
    "Item": (None, ASSOCIATED), "Err": (None, ASSOCIATED), "Output": (None, ASSOCIATED),
    "IntoIter": ({"plist", "plist_pairs"}, ASSOCIATED), "Iter": ({"plist", "plist_pairs"}, NAMED),
    "Values": ({"plist", "plist_pairs"}, NAMED),
    "Failure": ({"plist_commands", "plist_filter", "plist_keytree"}, PROGRAM),
    "Printer": ({"plist_print", "plist_keytree"}, PROGRAM),
    "Head": ({"plist_base", "plist_decode"}, SEEN), "Trailer": ({"plist_base", "plist_decode"}, SEEN),
}
WORD = re.compile(r"\s*((?:(?:abbrev|unfoldable|opaque|pub|data|record)\s+)*)([^\W\d][\w'-]*)\s*(?=[:({])(.*)")
TYPE = re.compile(r"\s*pub(?:\(crate\))?\s+(?:struct|enum|trait|type)\s+(\w+)")


def words(path):
    """Returns (is it a type, name) for each public word of a file of specs, except fields of records."""
    inside = None
    for line in path.read_text("utf8").splitlines():
        found = WORD.match(line)
        indent = len(line) - len(line.lstrip())
        if inside is not None and line.strip() and indent <= inside:
            inside = None
        if found and inside is None and "pub" in found[1].split():
            declares = bool({"data", "record"} & set(found[1].split()))
            if declares:
                inside = indent
            yield declares or re.fullmatch(r":\s*Type 0", found[3].strip()) is not None, found[2]


def types(path):
    """Returns (is it a type, name) for each type of a source file."""
    return ((True, found[1]) for found in map(TYPE.match, path.read_text("utf8").splitlines()) if found)


places = collections.defaultdict(set)
for pattern, names in ("crates/*/specs/**/*.antt", words), ("crates/*/src/**/*.rt", types):
    for path in TOP.glob(pattern):
        # skips what the kit makes of an `impl Model`, and the notation of the worked examples
        if "formers" not in path.parts and "Examples" not in path.parts:
            for is_type, name in names(path):
                for kind in ["type"] * is_type + ["word of specs"] * (names is words):
                    places[kind, name].add(path.relative_to(TOP))
twice = 0
for (kind, name), files in sorted(places.items()):
    crates = {file.parts[1] for file in files}
    allowed = name in ALLOWED and (ALLOWED[name][0] is None or crates <= ALLOWED[name][0])
    if len(files) > 1 and not allowed:
        twice += 1
        print(f"{name}, a {kind}, is defined {len(files)} times:", *sorted(map(str, files)))
sys.exit(twice > 0)
