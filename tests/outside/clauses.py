#!/usr/bin/env python3
"""Compares the clauses of the libraries with those of an older revision.

    tests/outside/clauses.py REV [--all]

Compares the clauses of functions and the ghost items of traits, impls and types, as `rt fmt` lays
them out, but not `specs/`. Prints each public function (`pub`, or of a trait) that is gone or
private now, that has a clause that is gone, changed or under another label, or that has a new
`requires`; with --all it prints private functions, too. A function that moved within its crate is
found by its name. The status is 1 if it prints any function. Otherwise it prints counts.
"""
import collections
import io
import pathlib
import re
import subprocess
import sys
import tarfile

TOP = pathlib.Path(__file__).resolve().parents[2]
# The crates of tests and examples, which aren't compared.
LEFT_OUT = set("""plist_vectors plist_program_tests plist_examples plist_support plist_uses
plist_settings plist_merge plist_keytree plist_filter plist_surface plist_callers""".split())
QUOTED = r"""b?"(?:\\.|[^"\\])*"|b?'(?:\\.|[^'\\])'"""
WORD = re.compile(QUOTED + r"|\w+|\S")
BODY = ""
for _ in range(6):
    BODY = rf"(?:{QUOTED}|[^{{}}]|\{{{BODY}\}})*+"
SEEN = re.compile(r"(?m)^(?:(?P<head>(?:pub(?:\(\w+\))? )?(?:impl|trait|struct|enum)\b[^{;]*)"
                  r"|(?P<at>(?:    )?)(?P<pub>pub(?:\(\w+\))? )?(?:const )?fn (?P<name>\w+)"
                  r"|(?P<in>    (?:    )?)(?P<kind>ghost|(?:requires|ensures)\*?)"
                  rf" ?(?P<label>\w*)(?: =|:)? ?\{{(?P<body>{BODY})\}})")
Function = collections.namedtuple("Function", "public clauses")
Clause = collections.namedtuple("Clause", "kind label body text")


def owner_of(head):
    """Returns the type of an impl, or the name of a trait or type, and whether its items are public."""
    head = " ".join(head.split()).replace("->", "→").split(" where")[0]
    if head.startswith("impl"):
        return re.sub(r"^impl(<(?:[^<>]|<(?:[^<>]|<[^<>]*>)*>)*>)? ?", "", head), " for " in head
    return re.match(r"(?:pub(?:\(\w+\))? )?(\w+ \w+)", head)[1], head.startswith("pub ")


def functions_of(text):
    """Returns the functions of a file, by owner and name. The ghost items of an owner have no name."""
    text = re.sub(f"({QUOTED})|//[^\n]*", lambda it: it[1] or "", text)
    found, owner, public, inside = {}, "", False, ""
    for it in SEEN.finditer(text):
        if it["head"]:
            owner, public = owner_of(it["head"])
        elif it["name"]:
            inside, key = it["at"] + "    ", (owner if it["at"] else "", it["name"])
            found[key] = Function(it["pub"] == "pub " or public and it["at"] != "", [])
        elif it["kind"] == "ghost" or it["in"] == inside:
            place = (owner, "") if it["kind"] == "ghost" else key
            new = Clause(it["kind"], it["label"], WORD.findall(it["body"]), " ".join(it[0].split()))
            found.setdefault(place, Function(public, [])).clauses.append(new)
    return found


def functions(files):
    """Returns all functions, by crate, and then by module, owner and name."""
    found = collections.defaultdict(dict)
    for path, text in files.items():
        it = re.fullmatch(r"(?:.*/)?crates/(\w+)/src/(.*)\.rt", path)
        if it and it[1] not in LEFT_OUT:
            found[it[1]] |= {(it[2], *key): its for key, its in functions_of(text).items()}
    return found


def files_of(revision):
    whole = subprocess.check_output(["git", "-C", TOP, "archive", revision])
    with tarfile.open(fileobj=io.BytesIO(whole)) as tar:
        return {it.name: tar.extractfile(it).read().decode()
                for it in tar if it.name.endswith(".rt")}


def differences(old, new):
    """Returns how many clauses are equal, and what is printed about the others."""
    count, lines, met = 0, [], []
    for a in old.clauses:
        them = [b for b in new.clauses if b.kind == a.kind]
        labelled = [b for b in them if b.label == a.label]
        worded = [b for b in them if b.body == a.body]
        same = [b for b in labelled if b in worded]
        near = same or labelled or worded
        met += near
        count += bool(same)
        if not same:
            lines += [("was: " if near else "gone: ") + a.text]
            lines += ["now: " + b.text for b in near]
    lines += ["new: " + b.text for b in new.clauses if b.kind[0] == "r" and b not in met]
    return count, lines + (["private now"] if old.public and not new.public else [])


def compare(key, was, now):
    """Returns how a function differs from the most similar one that has its name now."""
    found = [(place[0] != key[0], differences(was[key], new))
             for place, new in now.items()
             if place[1:] == key[1:] and (place == key or place not in was)]
    return min(found, key=lambda it: (it[0], len(it[1][1])))[1] if found else (0, ["gone"])


def main():
    if len(sys.argv) < 2 or sys.argv[2:] not in ([], ["--all"]):
        sys.exit(__doc__)
    before = files_of(sys.argv[1])
    now = functions({str(it): it.read_text() for it in TOP.glob("crates/*/src/**/*.rt")})
    found = [(crate, key, *compare(key, was, now[crate]))
             for crate, was in functions(before).items() for key in was
             if was[key].public or sys.argv[2:]]
    different = [it for it in found if it[3]]
    for crate, key, _, lines in different:
        print(f"{crate}/{' '.join(filter(None, key))}", *lines, sep="\n    ")
    if not different:
        print(f"{len(found)} functions compared, {sum(it[2] for it in found)} clauses alike")
    return bool(different)


if __name__ == "__main__":
    sys.exit(main())
