"""What the calls of `refused_calls.py` return with enough memory, and with too little.

Everything here was computed by hand, or by Python's `plistlib` and dictionaries.
"""
import datetime
import itertools
import pathlib
import plistlib
import struct

TABLES = pathlib.Path(__file__).resolve().parents[1] / "crates/plist_examples/data"
WANT, FAILED = "OutOfMemory", "WriterFailed"


# ---- values as words

def words_of(value):
    """Returns the events of a value as words."""
    if value is True or value is False:
        return ["true" if value else "false"]
    if isinstance(value, int):
        return [str(value)]
    if isinstance(value, float):
        return ["real:" + struct.pack(">d", value).hex()]
    if isinstance(value, str):
        return [f"'{value}'"]
    if isinstance(value, bytes):
        return [f"<{value.hex()}>"]
    if isinstance(value, plistlib.UID):
        return [f"uid:{value.data}"]
    if isinstance(value, datetime.datetime):
        return [f"date:{int((value - datetime.datetime(2001, 1, 1)).total_seconds())}"]
    if isinstance(value, list):
        below = [word for item in value for word in words_of(item)]
        return [f"[{len(value)}", *below, "end"]
    below = [word for pair in value.items() for item in pair for word in words_of(item)]
    return [f"{{{len(value)}", *below, "end"]


def joined(value):
    return " ".join(words_of(value))


def cuts(items, may_want):
    """Returns, for each item that `OutOfMemory` may replace, the items before it and that error."""
    return {" ".join([*items[:i], WANT]) for i, item in enumerate(items) if may_want(i, item)}


def in_binary(i, item):
    return i == 0 or item[0] in "[{'<" or "Utf" in item


def in_visit(i, item):
    """Returns whether memory may run out for this item of a visit.

    Strings and data are borrowed, except strings in UTF-16.
    """
    return i == 0 or item[0] in "[{" or not item.isascii()


def in_ascii(_, item):
    return item not in ("[", "{", "end") and not item.startswith("IncompleteComment")


def file_of(body, count, table, root=0, widths=b"\1\1"):
    """Returns a file with these objects and this table."""
    numbers = b"".join(number.to_bytes(8, "big") for number in (count, root, table))
    return b"bplist00" + bytes.fromhex(body) + bytes(6) + widths + numbers


MOMENT = datetime.datetime(2001, 1, 1, 0, 0, 5)
VALUE = {
    "name": "a text of more than eight bytes",
    "list": [1, True, 2.5, b"some bytes, more than eight", b"", plistlib.UID(4), MOMENT, "é",
             [["deep"], {}]],
    "again": "short",
}
# its strings have no blanks, so that its words can be separated
SIMPLE = {"name": "text", "list": [1, True, b"\0\xff", plistlib.UID(4), "é", [["deep"], {}]],
          "again": "text"}
BINARY = plistlib.dumps(VALUE, fmt=plistlib.FMT_BINARY, sort_keys=False)
ASCII = (b"{ name = 'a quoted text, and a longer one'; "
         b"list = (1, two, /* no */ { deep = \"\\U00e9\"; }); }")
ASCII_ITEMS = ["{", "'name'", "'a quoted text, and a longer one'", "'list'", "[", "1", "'two'",
               "{", "'deep'", "'é'", "end", "end", "end"]
ASCII_VALUE = {"name": "a quoted text, and a longer one", "list": [1, "two", {"deep": "é"}]}
FAULTY = b'("ab\\9cd" \'x\' /*'
FAULTY_ITEMS = ["[", "InvalidUtf8AsciiStream (offset 6)", "'cd\"'", "'x'",
                "IncompleteComment (offset 16)"]
KINDS = {"[": "StartArray", "{": "StartDictionary", "'": "String", "<": "Data", "t": "Boolean",
         "r": "Real", "u": "Uid", "d": "Date", "e": "EndCollection"}
PAIRS = "{ 'a' [ 'x' end 'b' 'a' end"
PAIRS_FILE = file_of("d201020301 5161 5162 a104 5178 080d0f1113", 5, 21)
# an array and a dictionary, each of them twice
TWICE = "[ { 'k' [ 'x' end end [ 'x' end { 'k' [ 'x' end end end"
TWICE_FILE = file_of("a3010201 d10302 516b a104 5178 080c110f13", 5, 21)
# more numbers than wait to be looked up together, and one of them again
NUMBERS = " ".join(["[", *map(str, range(20)), "0", "end"])
NUMBERS_FILE = file_of("af1015" + bytes([*range(1, 21), 1]).hex() + "".join(f"10{i:02x}" for i in range(20))
                       + "08" + bytes(range(32, 72, 2)).hex(), 21, 72)
ROOT = "{ '$objects' [ '$null' { 'name' uid:2 end 'x' end '$top' { 'root' uid:1 end end"
TRUE_FILE = file_of("0908", 1, 9)


# ---- calls that grow

def readers(calls):
    def sweep(names, content, items, may_want):
        for name in names:
            calls.sweep(name, content, " ".join(items), cuts(items, may_want))

    binary = ["BinaryReader", "limited BinaryReader", "seeking BinaryReader",
              "windows BinaryReader", "Reader", "limited Reader"]
    sweep(binary, BINARY, words_of(VALUE), in_binary)
    # the budget has 40 bytes: the first three texts have 39, and the data has more than one
    some = words_of(VALUE)
    some = some[:some.index("<" + VALUE["list"][3].hex() + ">")] + [WANT]
    sweep(["budgeted BinaryReader"], BINARY, some, in_binary)
    # if the windows can't be allocated, the source reads through those in its struct
    calls.sweep("windows", "", "good", set())
    surrogate = ["[2", "'a'", "InvalidUtf16String (offset 13)"]
    sweep(binary, file_of("a201025161 62d83d0041 080b0d", 3, 18), surrogate, in_binary)
    no_text = ["[1", "InvalidUtf8String (offset 10)"]
    sweep(binary, file_of("a10151ff 080a", 2, 12), no_text, in_binary)
    cut = BINARY[:-5]
    width = f"InvalidTrailerObjectOffsetSize (offset {len(cut) - 32})"
    sweep(binary, cut, [width], in_binary)
    visits(calls)
    sweep(["AsciiReader", "Reader", "limited Reader"], ASCII, ASCII_ITEMS, in_ascii)
    sweep(["AsciiReader", "Reader", "tight AsciiReader"], FAULTY, FAULTY_ITEMS, in_ascii)
    # limits end the items at the first fault
    sweep(["limited Reader"], FAULTY, FAULTY_ITEMS[:2], in_ascii)
    sweep(["tight AsciiReader"], b"{a=b\n}", ["{", "'a'", "'b'", "end"], in_ascii)
    for value in (SIMPLE, ["x"], "x"):
        calls.sweep("Events", joined(value), joined(value),
                     cuts(words_of(value), lambda i, item: item[0] in "[{"))


def visits(calls):
    words = words_of(VALUE)
    kinds = [KINDS.get(word[0], "Integer") for word in words]
    wants = {"".join(f"{kind} " for kind in kinds[:i]) + WANT
             for i, word in enumerate(words) if in_visit(i, word)}
    calls.sweep("visiting BinaryReader", BINARY, "".join(f"{kind} " for kind in kinds), wants)
    # a string, data and an integer, each twice: none of them is copied
    twice = file_of("a6010102020303 5161 420102 1005 080f1114", 4, 22)
    kinds = ["StartArray", "String", "String", "Data", "Data", "Integer", "Integer", "EndCollection"]
    wants = {WANT}
    for name in ("visiting BinaryReader", "visiting Reader"):
        calls.sweep(name, twice, "".join(f"{kind} " for kind in kinds), wants)
    # in ASCII, strings without escapes are borrowed from the buffer, and none is copied
    kinds = ["StartArray", "String", "String", "String", "EndCollection"]
    for name in ("visiting Reader", "handing AsciiReader"):
        calls.still(name, b"( 'a quoted string', a_bare_string, \"and another one\" )",
                    "".join(f"{kind} " for kind in kinds))


def failures(count):
    """Returns the results of this many events, if the allocation for each of them fails in turn."""
    for i in range(count):
        yield "; ".join(["ok"] * i + [WANT] + [FAILED] * (count - i - 1)) + "; "


def writers(calls):
    simple = joined(SIMPLE)
    builds = [(simple, simple), ("{ 'k' 1 'x' 2 'k' 3 end", "{2 'k' 3 'x' 2 end"), ("'a'", "'a'"),
              ("[ 1 end", "[1 1 end")]
    for words, built in builds:
        count = len(words.split(" "))
        wants = {f"{answers}| {FAILED}" for answers in failures(count)}
        calls.sweep("Builder", words, "ok; " * count + "| " + built, wants, stops=True)
    # the file of an earlier property list precedes that of these events
    both = [("BinaryWriter", PAIRS, PAIRS_FILE), ("BinaryWriter", NUMBERS, NUMBERS_FILE),
            ("SharingWriter", PAIRS, PAIRS_FILE), ("SharingWriter", NUMBERS, NUMBERS_FILE),
            ("SharingWriter", TWICE, TWICE_FILE)]
    for name, words, file in both:
        count = len(words.split(" "))
        wants = {f"{answers}\nok | {TRUE_FILE.hex()}" for answers in failures(count)}
        sent = (TRUE_FILE + file).hex()
        calls.sweep(name, words, "ok; " * count + f"\nok | {sent}", wants, stops=True)


def buffers(calls):
    # an event takes five bytes, in lists that grow by doubling; a wrong hint costs no more than the
    # memory of a thousand scalars
    calls.within("EventBuffer", " ".join(["[", *["true"] * 999]), "held", 12 * 1000)
    calls.within("EventBuffer with a wrong hint", "[ true [", "held", 100 * 1000)


def values(calls):
    simple = joined(SIMPLE)
    inputs = [(BINARY, joined(VALUE)), (ASCII, joined(ASCII_VALUE)), (TRUE_FILE, "true"),
              (b"", "UnexpectedEndOfEventStream")]
    for name in ("from_reader", "from_reader_with_limits", "from_reader_within", "from_file",
                 "from_file_within"):
        for content, words in inputs:
            calls.sweep(name, content, words, {WANT})
    calls.sweep("value_of_binary", BINARY, joined(VALUE), {WANT})
    calls.sweep("from_reader_ascii", ASCII, joined(ASCII_VALUE), {WANT})
    tight = joined({"a": "b", "c": [1]})
    calls.sweep("from_reader_ascii_with_dialect", b"{a=b;c=(1\n)\n}", tight, {WANT})
    calls.sweep("from_events", simple, simple, {WANT})
    behind = "ExpectedEndOfEventStream { found: String }"
    calls.sweep("from_events", "'a' 'b'", behind, {WANT})
    for name in ("clone of a value", "value_again"):
        calls.sweep(name, simple, f"{simple} | {simple}", {f"{WANT} | {simple}"})
    calls.sweep("try_from_str", "some text", "'some text'", {WANT})
    # the writer keeps the bytes that it had before
    calls.sweep("to_writer_binary", PAIRS, "ok | 07" + PAIRS_FILE.hex(), {f"{WANT} | 07"})
    # if memory runs out in the iterator over the events, the builder hasn't failed, but isn't complete
    wants = {f"{WANT} | {FAILED}", f"{WANT} | UnexpectedEndOfEventStream"}
    calls.sweep("write_value to a Builder", simple, f"ok | {simple}", wants)
    sent = "ok | " + PAIRS_FILE.hex()
    calls.sweep("write_value to a BinaryWriter", PAIRS, sent, {f"{WANT} | "})
    sent = "ok | " + TWICE_FILE.hex()
    calls.sweep("write_value to a SharingWriter", TWICE, sent, {f"{WANT} | "})


def files(calls):
    made, old = f"ok | {PAIRS_FILE.hex()}", b"an older file"
    calls.sweep("to_file_binary", old, made, {f"{WANT} | {old.hex()}"})
    calls.sweep("to_file_binary", b"", made, {f"{WANT} | no file"})


def dictionaries(calls):
    # the value of a new key after each call, and that of a key that was there
    inserts = [("insert", "v", "v"), ("or_insert", "v", 2), ("or_insert_with", "v", 2),
               ("insert of an entry", "v", 2), ("set_by_entry", 7, 7), ("set_by_made_entry", 7, 7)]
    for name, added, value in inserts:
        # the sizes at which something grows, and 1
        for size in (0, 1, 4, 8, 9, 16, 18, 32):
            old = {f"k{i}": i for i in range(size)}
            calls.sweep(name, joined(old), "ok | " + joined({**old, "new": added}),
                         {"back new 'v' | " + joined(old)})
        # a call for a key that is there allocates nothing
        there = {"a": 1, "new": 2}
        calls.still(name, joined(there), "ok | " + joined({**there, "new": value}))
    old = {"a": 1, "b": 2, "p": 3, "q": 4, "r": 5}
    state, states = dict(old), []
    for key in "bcadefg":
        states.append(joined(state))
        state[key] = True
    # the pairs after the one that couldn't be stored aren't taken from the iterator
    wants = {f"{WANT} {6 - place} | {words}" for place, words in enumerate(states)}
    calls.sweep("extend", joined(old), "ok 0 | " + joined(state), wants)
    made = joined(dict.fromkeys("bcadefg", True))
    calls.sweep("from_pairs", "-", f"{made} | {{0 end", {f"{WANT} | {{0 end"})
    old = {"b": 2, "a": [1], "c": {"z": 1, "y": 2}}
    words, ordered = joined(old), joined(dict(sorted(old.items())))
    calls.sweep("sort_keys", words, f"ok | {ordered}", {f"{WANT} | {words}"})
    calls.sweep("clone of a dictionary", words, f"{words} | {words}", {f"{WANT} | {words}"})


def scalars(calls):
    calls.sweep("text of a date", "-619446474", "1981-05-16T11:32:06Z", {WANT})
    calls.sweep("text of a date", "-378683424000", "YearOutOfRange", {WANT})
    zeros, lines = "00" * 52, "A" * 68 + "\nAA=="
    calls.sweep("text of data", zeros, lines, {WANT})
    calls.sweep("data of a text", lines.replace("\n", " "), zeros, {WANT})
    calls.sweep("data of a text", "A", "Decode", {WANT})
    calls.sweep("data_again", zeros, zeros, {WANT})
    calls.sweep("date_again", "-619446474", "-619446474", {WANT})
    calls.sweep("clone of data", "00ff", "00ff", {WANT})
    for word in ("'text'", "<00ff>"):
        calls.sweep("clone of an event", word, word, {WANT})
        calls.sweep("into_owned", word, word, {WANT})
    objects = "{ '$objects' [ '$null' [ uid:2 { 'k' uid:2 end end 'x' end '$top' { end end"
    calls.sweep("tree", objects, "[2 'x' {1 'k' 'x' end end", {WANT})
    cycle = "{ '$objects' [ '$null' [ uid:1 end end '$top' { end end"
    calls.sweep("tree", cycle, "RecursiveUid(1)", {WANT})


def uses(calls):
    file = PAIRS_FILE.hex()
    calls.sweep("Settings::open", PAIRS_FILE, f"ok | {file}", {WANT})
    calls.sweep("Settings::save", PAIRS_FILE, f"ok | {file}", {f"{WANT} | "})
    changed = file_of("d3010203040105 5161 5162 536e6577 a106 5178 1007 080f1113171b19", 7, 29)
    calls.sweep("Settings::set", PAIRS_FILE, f"ok | {changed.hex()}", {f"{WANT} | {file}"})
    calls.sweep("convert", PAIRS_FILE, f"ok | {file}", {f"{WANT} | "})
    calls.sweep("read_upload", PAIRS_FILE, joined({"a": ["x"], "b": "a"}), {WANT})
    calls.sweep("count", PAIRS_FILE, "1 1 4 0", {WANT})
    calls.sweep("count", ASCII, "1 2 6 1", {WANT})
    calls.sweep("read_upload", ASCII, joined(ASCII_VALUE), {WANT})
    keys = b"\x56second\x55level".hex()
    readings = file_of(f"a20102 d203040506 {keys} 1000 1005 d203040607 1007 080b2110171d1f26", 8, 40)
    calls.sweep("write_readings", "-", f"ok | {readings.hex()}", {f"{WANT} | "})
    calls.sweep("root_of", ROOT, "{1 'name' 'x' end", {WANT})


# ---- files that lie

def lying_files():
    """Returns the files of the table `hostile` whose fields are wrong, and their items."""
    for line in (TABLES / "hostile").read_text().splitlines():
        check, *fields = [field.strip() for field in line.split(" | ")]
        if check == "binary" and fields[1].startswith("file "):
            body, numbers = fields[1].removeprefix("file ").split(" / ")
            offset_width, width, count, root, table = map(int, numbers.split())
            yield file_of(body, count, table, root, bytes((offset_width, width))), fields[2]


def lies(calls):
    for content, items in lying_files():
        words = items.split(" ")
        events = list(itertools.takewhile(lambda word: not word[0].isupper(), words))
        fault = items.removeprefix(" ".join(events)).strip()
        for name in ("BinaryReader", "Reader"):
            calls.bounded(name, content, items)
            calls.sweep(name, content, items, cuts([*events, fault], in_binary))
        calls.bounded("from_reader", content, fault)


# ---- calls that take no memory

def still_readers(calls):
    still = calls.still

    def fault(digits, table, kind):
        still("later items", file_of(f"a101 {digits} 080a", 2, table), f"true {kind} (offset 10)")

    for content, told in ((TRUE_FILE, "binary"), (b" <plist", "XML"), (b"{}", "ASCII")):
        still("format_of", content, told)
    still("AsciiReader", b"({ // c\n/* d */ }); = ,\t)", "[ { end end end")
    still("AsciiReader", b"( /*", "[ IncompleteComment (offset 4)")
    still("AsciiReader", b"", "")
    small = [5, -1, True, 2.5, plistlib.UID(4), MOMENT]
    later = "true " + " ".join(words_of(small)[1:])
    still("later items", plistlib.dumps(small, fmt=plistlib.FMT_BINARY), later)
    still("later items", TRUE_FILE, "true ")
    missing = "true 5 ObjectReferenceTooLarge (offset 8)"
    still("later items", file_of("a20105 1005 080b", 2, 13), missing)
    still("later items", file_of("a100 08", 1, 10), "true RecursiveObject (offset 8)")
    fault("88", 11, "UnknownObjectType(136)")
    fault("00", 11, "NullObjectUnimplemented")
    fault("0f", 11, "FillObjectUnimplemented")
    fault("337ff0000000000000", 19, "OverflowOrNanDate")
    fault("14" + "ff" * 16, 27, "IntegerOutOfRange")
    fault("13", 11, "ObjectOffsetTooLarge")


def refusal(expected, found):
    return f"UnexpectedEventType {{ expected: {expected}, found: {found} }}; "


def still_writers(calls):
    calls.still("finish", "[ 'a' { 'k' 1 end end", "[2 'a' {1 'k' 1 end end")
    calls.still("finish", "[ 'a'", "UnexpectedEndOfEventStream")
    key, place, end = "DictionaryKeyOrEndCollection", "ValueOrStartCollection", "EndCollection"
    kinds = ["Integer", "StartArray", "StartDictionary", "Boolean", "Data", "Date", "Real", "Uid"]
    refused = "".join(refusal(key, kind) for kind in kinds)
    for name in ("a Builder", "a BinaryWriter", "a SharingWriter"):
        events = "{ | 1 [ { true <> date:0 real:00000000 uid:1"
        calls.still(f"refused by {name}", events, refused)
    calls.still("refused by a Builder", "{ 'k' | end", refusal(place, end))
    for name in ("a BinaryWriter", "a SharingWriter"):
        calls.still(f"refused by {name}", "{ 'k' | end", refusal(key, end))
        calls.still(f"refused by {name}", "true | end", refusal(place, end))
        # a scalar that equals a stored one isn't copied, and the memory of an earlier list is reused
        calls.still(f"taken by {name}", "[ 'x' 'x' 'x' 'x' | 'x'", "ok; ")
        calls.still(f"taken by {name}", "[ [ 'x' 'y' end end | [ 1 2 [", "ok; " * 4)
    behind = "".join(f"ExpectedEndOfEventStream {{ found: {kind} }}; "
                     for kind in ("String", "StartArray", end))
    calls.still("refused by a Builder", "'a' | 'b' [ end", behind)


def still_values(calls):
    calls.still("new", "-", "made")
    calls.still("later events", "[ 1 true uid:4 'x' <00> end", "[5 1 true uid:4 'x' <00> end")
    calls.still("into and out of a Value", "-", "Some(7) Some(4) true true")
    calls.still("Dictionary", "{ 'a' 1 'b' 2 'c' 3 'd' 4 end",
                 "true false true false 2 2 2 2 true true | {2 'd' 4 'c' true end")
    calls.still("entries", "{ 'a' 1 'b' 2 'c' 3 end", "Some(1) true false | {2 'c' 3 'b' 9 end")
    archive = "{ '$objects' [ '$null' 'x' end '$top' { 'root' uid:1 end end"
    calls.still("Archive", archive, "Some(1) 'x'")
    kinds = [("[ 1 [ 'x' end end", "Some(2)"), ("{ 'a' 1 'b' { end end", "Some(2)"),
             ("true", "Some(true)"), ("<00ff>", "Some(2)"), ("-5", "Some(-5)"),
             ("18446744073709551615", "Some(18446744073709551615)"), ("'text'", "Some(4)"),
             ("uid:9", "Some(9)"), ("date:-5", "Some(-5)"), ("real:3fc00000", "true")]
    for place, (words, shown) in enumerate(kinds):
        answers = ["true", *["None"] * 9, "false"]
        answers[place + 1] = shown
        calls.still("Value", words, " ".join(answers))


def still_scalars(calls):
    largest = "18446744073709551615"
    calls.still("Integer", largest, f"{largest} {largest} None Some({largest}) false")
    calls.still("Integer", "-5", "-5 -5 Some(-5) None false")
    calls.still("Integer", "0x0x10", "16 16 Some(16) Some(16) false")
    calls.still("Integer", "x", " None None false")
    calls.still("Data", "00ff", "2 0707")
    calls.still("Event", "'text' 'text'", "true true (String, String)")
    calls.still("Event", "'text' 'test'", "false true (String, String)")
    calls.still("Event", "'text' <74657874>", "false true (String, Data)")
    calls.still("Event", "<00ff> <00ff>", "true true (Data, Data)")
    calls.still("Event", "[ [0", "false true (StartArray, StartArray)")
    calls.still("Event", "[ {", "false true (StartArray, StartDictionary)")
    others = "true false true"
    zone = f"Some((-3600, 978303600)) {others}"
    calls.still("Date", "2001-01-01T00:00:00+01:00", zone)
    calls.still("Date", "1900-02-29T00:00:00Z", f"None {others}")


# ---- calls with enough memory

def far(calls):
    for name in ("far file", "far file with windows", "shrinking file", "shrinking file with windows"):
        for most in (1, 100, 1 << 20):
            calls.prints(name, str(most), "right")


def sizes(calls):
    reads = "next next-file visit visit-file Reader Reader-visit from_reader from_reader_within"
    writes = "Builder BinaryWriter SharingWriter to_writer_binary write_value clone tree"
    ascii_reads = "hand_over Reader Reader-visit from_reader"

    def add(form, shape, numbers, ways):
        told = "".join(f"{way} " for way in ways.replace("|", "").split())
        for number in numbers:
            calls.prints(f"{form} of size: {shape}", f"{number} {ways}", told)

    # the characters of a string, or the bytes of data; the unproved program takes some 1 to 10 microseconds a
    # character, so not every way has every size
    for shape in ("string", "key", "UTF-16 string", "UTF-16 key", "data"):
        add("binary", shape, (0, 1), f"{reads} | {writes}")
        add("binary", shape, [65_536], f"{reads} | Builder")
        add("binary", shape, [65_537], f"{reads} | {'BinaryWriter tree' if 'key' in shape else writes}")
        # data has no form in ASCII, and a bare string isn't empty
        if shape != "data":
            add("ASCII", shape, (0, 1, 65_536, 65_537), ascii_reads)
        if shape in ("string", "key"):
            add("bare", shape, (1, 65_536, 65_537), ascii_reads)
    add("binary", "string", [1_000_000], "next from_reader | BinaryWriter tree")
    add("binary", "UTF-16 string", [1_000_000], "next-file visit |")
    add("binary", "UTF-16 key", [1_000_000], "next |")
    add("binary", "data", [1_000_000], "next-file | SharingWriter")
    add("ASCII", "string", (0, 1, 65_537), "next from_reader_ascii")
    add("ASCII", "UTF-16 string", [1_000_000], "Reader")
    add("bare", "key", [1_000_000], "from_reader")
    # the objects of a file, all of them the same string
    add("binary", "objects", (1, 65_536, 65_537), f"{reads} |")
    add("binary", "objects", [1_000_000], "next |")
    # the integers of an array, and the arrays that are open at once; `deep.rt` has 100,000 of these
    for shape in ("items", "levels"):
        add("binary", shape, (0, 1), f"{reads} | {writes}")
        add("ASCII", shape, (0, 1), ascii_reads)
    add("binary", "items", [65_537], "| BinaryWriter")
    add("binary", "levels", [65_537], "next visit |")


def file_of_objects(objects, root):
    """Returns a file with these objects, and references and offsets of two and four bytes."""
    places = list(itertools.accumulate(map(len, objects), initial=8))
    table = b"".join(place.to_bytes(4, "big") for place in places[:-1])
    numbers = b"".join(number.to_bytes(8, "big") for number in (len(objects), root, places[-1]))
    return b"bplist00" + b"".join(objects) + table + bytes(6) + b"\4\2" + numbers


def array_of(numbers):
    return b"\xaf\x11" + len(numbers).to_bytes(2, "big") + b"".join(n.to_bytes(2, "big") for n in numbers)


def counted(calls):
    count = 5000
    # strings of twenty bytes, which aren't cached, and the same ones in another order
    texts = [b"\x5f\x10\x14" + f"text number {n:08}".encode() for n in range(count)]
    others = [n * 2503 % count for n in range(count)]
    # arrays of sixteen strings each
    groups = [array_of(range(n, n + 16)) for n in range(0, count - 16, 16)]
    inner = range(count, count + len(groups))
    # the objects, the number of events, and how many objects are looked at in advance
    inputs = [([*texts, array_of(range(count))], count, 0), ([*texts, array_of(others)], count, count),
              ([*texts, array_of([7] * count)], count, 0),
              ([*texts, *groups, array_of(inner)], 18 * len(groups), 0)]
    for objects, events, ahead in inputs:
        file = file_of_objects(objects, len(objects) - 1)
        events += 2
        # With nothing buffered: the size, the magic and the trailer; for each object a read of its offset; for
        # each event a read of a reference, one of at most 26 bytes of the object, and one of its content.
        reads = 10 + len(objects) + 3 * events
        asked = 100 + 4 * len(objects) + (2 + 26 + 20) * events
        calls.counts("reads of bytes", file, [events], [reads, asked, 4 * events + len(objects) + 100])
        # With everything buffered: the size, the magic, the trailer and the first offset; for each event a
        # look at the object, and for each run of references one at the references.
        looks = events + events // 4 + 20 + ahead
        calls.counts("reads of buffered bytes", file, [events], [10, 100, looks])
    # A buffer of 65,536 bytes is written if the next bytes don't fit, and these bytes may be written directly.
    # At the end the writer is flushed once.
    for objects, events, _ in (inputs[0], inputs[3]):
        file = file_of_objects(objects, len(objects) - 1)
        for name, size in (("BinaryWriter", len(file)), ("SharingWriter", len(file)), ("value", len(file)),
                           ("printer", 40 * (events + 2))):
            calls.counts(f"writes of a {name}", file, [1], [2 * (size // 60_000) + 4, size])
    # A long string is written directly, between the bytes before and after it. It is printed in blocks of 4,096
    # bytes; the buffer is written if a block might not fit in which each byte is printed as four.
    size = 100_000
    file = file_of_objects([b"\x5f\x12" + size.to_bytes(4, "big") + b"a" * size], 0)
    for name in ("BinaryWriter", "SharingWriter", "value"):
        calls.counts(f"writes of a {name}", file, [1], [3, len(file)])
    line = size + len('String ""\n')
    calls.counts("writes of a printer", file, [1], [line // 49_152 + 1, line])


def run(calls):
    far(calls)
    sizes(calls)
    counted(calls)
    readers(calls)
    writers(calls)
    buffers(calls)
    values(calls)
    files(calls)
    dictionaries(calls)
    scalars(calls)
    uses(calls)
    lies(calls)
    still_readers(calls)
    still_writers(calls)
    still_values(calls)
    still_scalars(calls)
