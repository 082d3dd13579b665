#!/usr/bin/env python3
"""Checks that each public type that a signature of `plist` names can be named through `plist`.

The signatures are those of the functions, fields, variants and impls of everything that `plist`
exports, in whichever crate it is defined. The status is 1 if a name is missing.
"""
import pathlib
import re
import sys

TOP = pathlib.Path(__file__).resolve().parents[2]
# The names that each file has without a `use`.
PRELUDE = set("""Self Option Some None Result Ok Err Vec String Box Iterator IntoIterator From Into
Drop Copy Clone PartialEq Eq PartialOrd Ord ExactSizeIterator Fn FnMut FnOnce Default AsRef AsMut
AllocGlobal HostRuntime Debug Display Hash Send Sync Sized TryFrom TryInto Extend FromIterator
ToString""".split())
# The trait that only the crates that `plist` uses can implement. It is in `plist_base`.
SEALED = {"Sealed"}
NAME = re.compile(r"\b[A-Z]\w*\b")


def code_of(path):
    """Returns a file without its comments, its ghost lines and the names of associated types."""
    text = re.sub(r"//[^\n]*", "", path.read_text())
    text = re.sub(r"\bSelf::[A-Z]\w*", "Self", text)
    return re.sub(r"(?ms)^\s*ghost [^;]*;\n", "", text)


def crates_below(name):
    lines = dict(
        re.findall(r"(?m)^(\w+)[^:\n]*: *(.*)$", (TOP / "crates.txt").read_text())
    )
    found, left = set(), [name]
    while left:
        it = left.pop()
        if it in lines and it not in found:
            found.add(it)
            left += lines[it].split()
    return found


def imported(text, kit):
    """Returns the names that a file imports from the kit's library, or from other crates."""
    names = set()
    for whole in re.findall(r"(?ms)^\s*(?:pub )?use ([^;]+);", text):
        if (whole.split("::")[0] in ("std", "core")) == kit:
            names |= set(NAME.findall(whole))
    return names


def passed_on(sources):
    """Returns the names that `plist` exports, and the files of which it exports everything."""
    names, whole_files = set(), set()
    for module in ("lib", "dictionary", "stream", "value", "stream/builder", "stream/events", "stream/reading", "stream/writing"):
        text = sources[f"plist/{module}"]
        names |= set(re.findall(r"(?m)^pub (?:struct|enum|trait|type) (\w+)", text))
        names |= set(re.findall(r"(?m)^pub fn (\w+)", text))
        for whole in re.findall(r"(?ms)^pub use ([^;]+);", text):
            crate, _, these = whole.partition("::")
            for it in re.findall(r"\w+", these.split("{")[-1]):
                below = sources.get(f"{crate}/{it}", "")
                whole_files |= {f"{crate}/{it}"} if below else set()
                names |= {it, *re.findall(r"(?m)^pub (?:struct|enum|trait|type) (\w+)", below)}
                names |= set(NAME.findall(" ".join(re.findall(r"(?m)^pub use [^;]+;", below))))
    return names, whole_files


def blocks(text):
    """Yields the head and the body of each top-level item."""
    for it in re.finditer(r"(?ms)^((?:pub )?(?:impl|struct|enum|trait|type|fn)\b[^{;]*)(\{.*?^\}|;|\{[^\n]*\})", text):
        yield it[1], it[2]


def signatures(text, names, is_whole):
    """Returns the signatures of the items of these names, or of all functions of a whole file."""
    for head, body in blocks(text):
        head = re.split(r"\b(?:ensures|requires)\b", head)[0]
        made = re.match(r"pub (struct|enum|trait|type|fn) (\w+)", head)
        if made and (made[2] in names or is_whole and made[1] == "fn"):
            yield head, head
            inside = {"trait": r"\bfn [^{;]*", "enum": r"(?s).*", "struct": r"pub \w+: [^,\n]*"}
            for it in re.findall(inside.get(made[1], r"$^"), body):
                yield head, re.split(r"\b(?:ensures|requires)\b", it)[0]
        subject = re.match(r"impl\b(?:<.*?>)? *(?:[\w:]+(?:<.*>)? for )?&?(?:'\w+ )?(?:mut )?(\w+)", head)
        if subject and subject[1] in names:
            yield head, head.replace("impl", "", 1)
            for it in re.findall(r"pub (?:const )?fn [^{;]*|\btype \w+ = [^;]*", body):
                yield head, re.split(r"\b(?:ensures|requires)\b", it)[0]


def parameters(head):
    """Returns the names of the parameters that a head or a signature declares."""
    return set(re.findall(r"[<,] *(?:const )?([A-Z]\w*)(?= *[:,>=])", head)) | {"Item", "IntoIter", "Output", "Err", "Target"}


def main():
    files = {
        f"{name}/{path.relative_to(TOP / 'crates' / name / 'src').with_suffix('')}": path
        for name in crates_below("plist")
        for path in (TOP / "crates" / name / "src").rglob("*.rt")
    }
    sources = {name: code_of(path) for name, path in files.items()}
    names, whole_files = passed_on(sources)
    missing = set()
    for name, text in sources.items():
        known = PRELUDE | SEALED | names | imported(text, True)
        own = set(re.findall(r"(?:struct|enum|trait|type) (\w+)", text)) | imported(text, False)
        for head, signature in signatures(text, names, name in whole_files):
            wanted = set(NAME.findall(signature)) & own
            for it in wanted - known - parameters(head.split("{")[0]) - parameters(signature):
                missing.add(f"{it}, named by {name}: {' '.join(signature.split())[:100]}")
    for it in sorted(missing):
        print(f"plist doesn't export {it}")
    return 1 if missing else 0


if __name__ == "__main__":
    sys.exit(main())
