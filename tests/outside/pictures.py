#!/usr/bin/env python3
"""Draws docs/speed.svg and docs/crates.svg.

    tests/outside/pictures.py [check]

docs/speed.svg shows five rows of the first table of docs/SPEED.md: for each shape of file the time and
the memory of `plist_tool`, divided by those of a program over the crate. docs/crates.svg shows
crates.txt: each library and program with what it is for, and which crates each uses. Each picture
contains a checksum of its table. With `check` nothing is written. The status is then 1 if a picture
isn't the one that would be written now. It is also 1 if JOBS has no line for a crate.
"""
import hashlib
import pathlib
import re
import sys
from xml.sax.saxutils import escape

TOP = pathlib.Path(__file__).resolve().parents[2]
STYLE = """
text { font: 13px sans-serif; fill: #24292f }
.small { font-size: 11px; fill: #57606a } .strong { font-weight: bold }
.axis { stroke: #d0d7de; stroke-width: 1 }
.one { stroke: #cf222e; stroke-width: 1.5; stroke-dasharray: 5 4 }
.print { fill: #0969da } .convert { fill: #1a7f37 } .memory { fill: #bf8700 }
.box { fill: #f6f8fa; stroke: #8c959f; stroke-width: 1.2 }
.named { fill: #ddf4ff; stroke: #0969da; stroke-width: 2 } .ready { fill: #dafbe1; stroke: #1a7f37; stroke-width: 2 }
.edge { stroke: #8c959f; stroke-width: 1.3; fill: none }
.value { paint-order: stroke; stroke: #ffffff; stroke-width: 3; stroke-linejoin: round }
@media (prefers-color-scheme: dark) {
text { fill: #e6edf3 } .small { fill: #9198a1 } .axis { stroke: #3d444d } .one { stroke: #ff7b72 }
.print { fill: #58a6ff } .convert { fill: #3fb950 } .memory { fill: #d29922 }
.box { fill: #161b22; stroke: #6e7681 }
.named { fill: #0c2d6b; stroke: #58a6ff } .ready { fill: #0f2d17; stroke: #3fb950 }
.edge { stroke: #6e7681 } .value { stroke: #0d1117 }
}
"""
# The bars of a shape: the class of each in STYLE, and its label.
KINDS = (("print", "time of print"), ("convert", "time of convert"), ("memory", "memory of convert"))
# A word of the name of each shape that docs/speed.svg shows.
SHOWN = ("settings", "integers", "repeated", "beyond ASCII", "10^6 levels")
# What each crate is for.
JOBS = {
    "plist_tool": "the program", "plist_c": "for C, Rust, Python",
    "plist_commands": "print, convert, keyed", "plist_keyed": "Archive: keyed archives",
    "plist_share": "SharingWriter", "plist_print": "an event per line",
    "plist": "Value, Dictionary, stream", "plist_reader": "Reader: either format",
    "plist_binread": "BinaryReader", "plist_ascii": "AsciiReader", "plist_binwrite": "BinaryWriter",
    "plist_decode": "objects from bytes", "plist_buffer": "events in memory",
    "plist_pairs": "pairs in order", "plist_base": "scalars, events, errors, limits",
}
# The colours of the boxes: the class of each in STYLE, what it means, and its crates.
COLOURS = (
    ("named", "your program names these", ("plist", "plist_share", "plist_keyed")),
    ("ready", "ready to run, or to call from other languages", ("plist_tool", "plist_c")),
    ("box", "the crates that they use", ()),
)


def checksum(text):
    return hashlib.sha256(text.encode()).hexdigest()[:16]


def picture(width, height, title, described, source, body):
    return (f'<svg xmlns="http://www.w3.org/2000/svg" width="{width}" height="{height}" '
            f'viewBox="0 0 {width} {height}" role="img" data-source="{checksum(source)}">\n'
            f"<title>{escape(title)}</title>\n<desc>{escape(described)}</desc>\n"
            f"<style>{STYLE}</style>\n" + "\n".join(body) + "\n</svg>\n")


# ---- speed


def speed_table():
    """Returns the lines of the first table of docs/SPEED.md, and the version of the crate in it or before it."""
    lines = (TOP / "docs/SPEED.md").read_text(encoding="utf-8").splitlines()
    first = next(i for i, line in enumerate(lines) if line.startswith("| shape"))
    end = next(i for i in range(first, len(lines)) if not lines[i].startswith("|"))
    for line in lines[first:end] + lines[first::-1]:
        version = re.search(r"\b\d+\.\d+\.\d+\b", line)
        if version:
            return lines[first:end], version[0]
    raise ValueError("docs/SPEED.md doesn't name the version of the crate")


def ratios(lines):
    """Returns each shape of SHOWN with its three ratios, or None for each that is missing."""
    found = {}
    for line in lines[2:]:
        cells = [cell.strip() for cell in line.strip("|").split("|")]
        word = next((it for it in SHOWN if it in cells[0] and it not in found), None)
        pair = re.fullmatch(r"([\d.]+), ([\d.]+)", cells[4])
        print_time = float(cells[2]) if re.fullmatch(r"[\d.]+", cells[2]) else None
        if word:
            found[word] = (cells[0], (print_time, *(map(float, pair.groups()) if pair else (None, None))))
    return [found[word] for word in SHOWN]


def scale(left, unit, top, bottom):
    """Yields a line for each fifth of the crate's time or memory."""
    for tenth in range(0, 11, 2):
        x = left + unit * tenth / 10
        style = "one" if tenth == 10 else "axis"
        yield (f'<line class="{style}" x1="{x}" y1="{top}" x2="{x}" y2="{bottom}"/>'
               f'<text class="small" x="{x}" y="{bottom + 15}" text-anchor="middle">{tenth / 10:.1f}</text>')


def bars(values, left, unit, y, bar):
    """Yields the bars of a shape. Where the crate has no value, a sentence says so."""
    for (kind, _), value in zip(KINDS, values):
        if value is not None:
            yield (f'<rect class="{kind}" x="{left}" y="{y}" width="{unit * value:.1f}" height="{bar - 1}"/>'
                   f'<text class="small value" x="{left + unit * value + 5:.1f}" y="{y + bar - 3}">{value:.2f}</text>')
        elif kind == "convert":
            yield (f'<text class="small value" x="{left + 5}" y="{y + bar + 4}">'
                   "the crate ends by a signal</text>")
        y += bar


def speed():
    lines, version = speed_table()
    rows = ratios(lines)
    unit, bar, gap, top = 440, 14, 14, 84
    left = 30 + 8 * max(len(shape) for shape, _ in rows)
    step = 3 * bar + gap
    bottom = top + len(rows) * step
    title = f"Time and memory of plist_tool, divided by those of version {version} of the crate"
    note = "Files of 10 MB, or of 10^6 levels. Shorter is better; 1.0 is as much as the crate takes."
    body = [f'<text class="strong" x="16" y="24">{title}</text>', f'<text class="small" x="16" y="42">{note}</text>']
    for i, (kind, label) in enumerate(KINDS):
        x = left + i * 150
        body.append(f'<rect class="{kind}" x="{x}" y="54" width="12" height="12"/>'
                    f'<text class="small" x="{x + 17}" y="64">{label}</text>')
    body += scale(left, unit, top - 8, bottom - 4)
    described = []
    for i, (shape, values) in enumerate(rows):
        y = top + i * step
        body.append(f'<text x="{left - 10}" y="{y + 2 * bar - 3}" text-anchor="end">{escape(shape)}</text>')
        body += bars(values, left, unit, y, bar)
        for (_, label), value in zip(KINDS, values):
            number = "no number, since the crate ends by a signal" if value is None else f"{value:.2f}"
            described.append(f"{shape}: {label} {number}")
    width, height = left + unit + 30, bottom + 24
    return picture(width, height, f"Speed compared with version {version} of the crate", "; ".join(described),
                   "\n".join(lines), body)


# ---- crates


def crates():
    """Returns the libraries and the program of crates.txt, each with those that it uses."""
    source = (TOP / "crates.txt").read_text(encoding="utf-8")
    lines = [line.partition("#")[0].strip() for line in source.splitlines()]
    named = {line.partition(":")[0].split()[0]: line.partition(":")[2].split() for line in lines if ":" in line}
    public = {name: [it for it in below if it in named] for name, below in named.items()
              if (TOP / "crates" / name / "README.md").exists() or name in JOBS}
    return source, {name: [it for it in below if it in public] for name, below in public.items()}


def reached(below, name):
    found = {name}
    for it in below[name]:
        found |= reached(below, it)
    return found


def direct(below, name):
    """Returns the crates that a crate uses, except those that another of them uses."""
    beneath = set()
    for it in below[name]:
        beneath |= reached(below, it) - {it}
    return [it for it in below[name] if it not in beneath]


def level(below, name):
    return 1 + max((level(below, it) for it in below[name]), default=-1)


def paths(below):
    """Returns a path for each direct use, from the user down to the crate that it uses.

    A path has an item for each row that it crosses. An item between the two crates is a pair of them
    and the row: lines leave room for it, so that no line is drawn behind a box.
    """
    found = []
    for name in below:
        for it in direct(below, name):
            between = [(name, it, row) for row in range(level(below, name) - 1, level(below, it), -1)]
            found.append([name, *between, it])
    return found


def arranged(below):
    """Returns the rows of the picture from the top, each with its items from left to right."""
    rows = [[] for _ in range(1 + max(level(below, name) for name in below))]
    above = {}
    for path in paths(below):
        for upper, lower in zip(path, path[1:]):
            above.setdefault(lower, []).append(upper)
    for name in below:
        rows[level(below, name)].append(name)
    for path in paths(below):
        for it in path[1:-1]:
            rows[it[2]].append(it)
    centre = {}
    for row in reversed(rows):
        row.sort(key=lambda it: (sum(centre[up] for up in above.get(it, ())) / max(1, len(above.get(it, ()))), str(it)))
        for i, it in enumerate(row):
            centre[it] = (i + 0.5) / len(row)
    return rows[::-1]


def drawn_path(path, place, tall):
    """Returns the line from a crate down to one that it uses."""
    line = []
    for upper, lower in zip(path, path[1:]):
        (x, y), (u, v) = place[upper], place[lower]
        if isinstance(upper, str):
            line.append(f"M {x} {y + tall}")
        line.append(f"C {x} {y + tall + 22}, {u} {v - 22}, {u} {v}")
        if not isinstance(lower, str):
            line.append(f"L {u} {v + tall}")
    return f'<path class="edge" d="{" ".join(line)}"/>'


def drawn_box(name, x, y, wide, tall):
    style = next((style for style, _, names in COLOURS if name in names), "box")
    return (f'<rect class="{style}" x="{x - wide / 2}" y="{y}" width="{wide}" height="{tall}" rx="6"/>'
            f'<text class="strong" x="{x}" y="{y + 18}" text-anchor="middle">{name}</text>'
            f'<text class="small" x="{x}" y="{y + 34}" text-anchor="middle">{JOBS[name]}</text>')


def legend():
    x = 16
    for style, label, _ in COLOURS:
        yield (f'<rect class="{style}" x="{x}" y="12" width="14" height="14" rx="3"/>'
               f'<text class="small" x="{x + 20}" y="23">{label}</text>')
        x += 44 + 6.4 * len(label)


def crates_picture():
    source, below = crates()
    rows = arranged(below)
    wide, gap, high, box, tall = 206, 36, 84, 186, 44
    sizes = [[wide if isinstance(it, str) else gap for it in row] for row in rows]
    width, height = max(map(sum, sizes)) + 20, len(rows) * high + 20
    place = {}
    for depth, (row, size) in enumerate(zip(rows, sizes)):
        x = (width - sum(size)) / 2
        for it, its in zip(row, size):
            place[it] = (x + its / 2, depth * high + (high - tall))
            x += its
    body = [*legend(), *(drawn_path(path, place, tall) for path in paths(below))]
    body += [drawn_box(name, *place[name], box, tall) for name in below]
    described = [f"{name} uses {', '.join(below[name]) or 'the kit alone'}" for name in below]
    return picture(width, height, "The crates, and which others each uses", "; ".join(described), source, body)


def main(words):
    status = 0
    jobless = sorted(set(crates()[1]) - set(JOBS))
    if jobless:
        print("tests/outside/pictures.py: JOBS has no line for " + ", ".join(jobless))
        return 1
    for name, drawn in (("speed", speed()), ("crates", crates_picture())):
        path = TOP / "docs" / f"{name}.svg"
        if words != ["check"]:
            path.write_text(drawn, encoding="utf-8")
        elif not path.exists() or path.read_text(encoding="utf-8") != drawn:
            print(f"docs/{name}.svg isn't drawn from the present table: run tests/outside/pictures.py")
            status = 1
    return status


if __name__ == "__main__":
    sys.exit(main(sys.argv[1:]))
