"""A second reader and writer of property lists, written from docs/FORMAT.md alone.

It is slow and simple. A file is a `bytes`. Its items are a list of events, with at most one fault at
the end if it is binary. An event is a tuple of its name and its content. A text is its UTF-8 bytes.
"""
import math
import struct

MAGIC = b"bplist00"
FIRST_SECOND, LAST_SECOND = -378683424000, 252423993599


class Fault(Exception):
    """Why the input was rejected, and the offset, if there is one."""

    def __init__(self, name, offset=None):
        super().__init__(name)
        self.text = name if offset is None else f"{name} (offset {offset})"


class TooMany(Exception):
    """There are more items than the limit."""


# ---- binary property lists

class Container:
    """The trailer's fields and the offsets of the objects."""

    def __init__(self, data):
        size = len(data)
        if size < 8:
            raise Fault("UnexpectedEof", size)
        if data[:8] != MAGIC:
            raise Fault("InvalidMagic", 0)
        if size < 32:
            raise Fault("UnexpectedEof", size)
        self.data, self.end = data, size - 32
        trailer = data[self.end:]
        width, self.width = trailer[6], trailer[7]
        count, self.root, table = (number(trailer[i:i + 8]) for i in (8, 16, 24))
        if width not in (1, 2, 3, 4, 8):
            raise Fault("InvalidTrailerObjectOffsetSize", self.end)
        if self.width not in (1, 2, 3, 4, 8):
            raise Fault("InvalidTrailerObjectReferenceSize", self.end)
        if table + count * width > self.end:
            raise Fault("ObjectOffsetTooLarge", self.end)
        self.places = numbers(data[table:table + count * width], width)


def number(data):
    return int.from_bytes(data, "big")


def numbers(data, width):
    return [number(data[i:i + width]) for i in range(0, len(data), width)]


FIXED = {0x08: 0, 0x09: 0, 0x10: 1, 0x11: 2, 0x12: 4, 0x13: 8, 0x14: 16, 0x22: 4, 0x23: 8, 0x33: 8,
         **{0x80 + i: i + 1 for i in range(8)}}
COUNTED = {0x4: 1, 0x5: 1, 0x6: 2}


def object_at(container, place):
    """Returns an event, or the start of a collection with the numbers of its children in order."""
    data = container.data[place:container.end]
    if not data:
        raise Fault("ObjectOffsetTooLarge", place)
    marker, rest = data[0], data[1:]
    try:
        if marker in FIXED:
            return fixed(marker, front(rest, FIXED[marker])), None
        if marker >> 4 in COUNTED:
            count, rest = length(marker, rest)
            return counted(marker >> 4, front(rest, count * COUNTED[marker >> 4])), None
        if marker >> 4 in (0xA, 0xD):
            count, rest = length(marker, rest)
            of_one = 1 if marker >> 4 == 0xA else 2
            children = numbers(front(rest, count * of_one * container.width), container.width)
            if of_one == 1:
                return ("StartArray", count), children
            pairs = zip(children[:count], children[count:])
            return ("StartDictionary", count), [child for pair in pairs for child in pair]
        refused = {0x00: "NullObjectUnimplemented", 0x0F: "FillObjectUnimplemented"}
        raise Fault(refused.get(marker, f"UnknownObjectType({marker})"))
    except Fault as fault:
        raise Fault(str(fault), place) from None


def front(data, size):
    if len(data) < size:
        raise Fault("ObjectOffsetTooLarge")
    return data[:size]


def length(marker, rest):
    if marker & 15 < 15:
        return marker & 15, rest
    width = 1 << (front(rest, 1)[0] & 3)
    return number(front(rest[1:], width)), rest[1 + width:]


def fixed(marker, content):
    if marker in (0x08, 0x09):
        return "Boolean", marker == 0x09
    if marker <= 0x12:
        return "Integer", number(content)
    if marker in (0x13, 0x14):
        value = int.from_bytes(content, "big", signed=True)
        if marker == 0x14 and not 0 <= value < 1 << 64:
            raise Fault("IntegerOutOfRange")
        return "Integer", value
    if marker == 0x33:
        return "Date", date(content)
    return ("Real", content) if marker < 0x80 else ("Uid", number(content))


def date(content):
    value, = struct.unpack(">d", content)
    if not math.isfinite(value) or not FIRST_SECOND <= math.floor(value) <= LAST_SECOND:
        raise Fault("OverflowOrNanDate")
    return content if value else bytes(8)


def counted(kind, content):
    if kind == 0x4:
        return "Data", content
    try:
        text = content.decode("utf-8" if kind == 0x5 else "utf-16-be")
    except UnicodeDecodeError:
        raise Fault("InvalidUtf8String" if kind == 0x5 else "InvalidUtf16String") from None
    return "String", text.encode()


def binary_items(data, most):
    """Returns the events up to the first fault, and the fault or None."""
    events = []
    try:
        container = Container(data)
        walk(container, events, most)
    except Fault as fault:
        return events, fault
    return events, None


def walk(container, events, most):
    """Walks depth first from the root. An open collection is its number and its remaining children."""
    open_ones = [(None, iter([container.root]))]
    while open_ones:
        holder, children = open_ones[-1]
        child = next(children, None)
        if len(events) > most:
            raise TooMany
        if child is None:
            open_ones.pop()
            if holder is not None:
                events.append(("EndCollection",))
            continue
        if child >= len(container.places):
            raise Fault("ObjectReferenceTooLarge", container.end if holder is None else container.places[holder])
        place = container.places[child]
        if any(child == number_of for number_of, _ in open_ones):
            raise Fault("RecursiveObject", place)
        event, below = object_at(container, place)
        events.append(event)
        if below is not None:
            open_ones.append((child, iter(below)))


# ---- ASCII property lists

STOPS = b" )\r\t;,"
ESCAPES = dict(zip(b"\\\"'abfnrtv", b"\x5c\x22\x27\x07\x08\x0c\x0a\x0d\x09\x0b"))
NEXTSTEP = [int(code, 16) for code in """
    a0 c0 c1 c2 c3 c4 c5 c7 c8 c9 ca cb cc cd ce cf
    d0 d1 d2 d3 d4 d5 d6 d9 da db dc dd de b5 d7 f7
    a9 a1 a2 a3 2044 a5 192 a7 a4 2019 201c ab 2039 203a fb01 fb02
    ae 2013 2020 2021 b7 a6 b6 2022 201a 201e 201d bb 2026 2030 ac bf
    b9 2cb b4 2c6 2dc af 2d8 2d9 a8 b2 2da b8 b3 2dd 2db 2c7
    2014 b1 bc bd be e0 e1 e2 e3 e4 e5 e7 e8 e9 ea eb
    ec c6 ed aa ee ef f0 f1 141 d8 152 ba f2 f3 f4 f5
    f6 e6 f9 fa fb 131 fc fd 142 f8 153 df fe ff fffd fffd""".split()]
HEXADECIMAL = set(b"0123456789abcdefABCDEF")


class Ascii:
    """The bytes of an ASCII property list, and how many of them have been read."""

    def __init__(self, data):
        self.data, self.place = data, 0

    def items(self):
        """Yields each event or fault in order. A fault doesn't end them."""
        while self.place < len(self.data):
            try:
                event = self.token()
            except Fault as fault:
                yield Fault(str(fault), self.place)
                continue
            if event is not None:
                yield event

    def look(self, offset=0):
        return self.data[self.place + offset:self.place + offset + 1]

    def take(self, count=1):
        taken = self.data[self.place:self.place + count]
        self.place += len(taken)
        if len(taken) < count:
            raise Fault("UnclosedString")
        return taken

    def token(self):
        first = self.take()
        if first in b"({":
            return ("StartArray" if first == b"(" else "StartDictionary"), None
        if first in b")}":
            return ("EndCollection",)
        if first in b",;= \t\r\n":
            return None
        if first in b"'\"":
            return self.quoted(first)
        if first == b"/":
            return self.slash()
        return self.bare(first)

    def bare(self, front_of_it):
        end = self.place
        while end < len(self.data) and self.data[end] not in STOPS:
            end += 1
        text = front_of_it + self.take(end - self.place)
        text = utf8(text)
        value = integer_of_text(text)
        return ("String", text) if value is None else ("Integer", value)

    def slash(self):
        behind = self.look()
        if behind == b"/":
            end = self.data.find(b"\n", self.place)
            self.place = len(self.data) if end < 0 else end
            return None
        if behind == b"*":
            end = self.data.find(b"*/", self.place + 1)
            self.place = len(self.data) if end < 0 else end + 2
            if end < 0:
                raise Fault("IncompleteComment")
            return None
        if not behind:
            raise Fault("IncompleteComment")
        return self.bare(b"/")

    def quoted(self, quote):
        text = b""
        while (byte := self.take()) != quote:
            text += self.escape() if byte == b"\\" else byte
        return "String", utf8(text)

    def escape(self):
        byte = self.take()
        if byte[0] in ESCAPES:
            return bytes([ESCAPES[byte[0]]])
        if byte in b"01234567":
            digits = byte + self.take(2)
            if not set(digits) <= set(b"01234567"):
                raise Fault("InvalidOctalString")
            code = int(digits, 8)
            return chr(NEXTSTEP[code - 128] if 128 <= code < 256 else code).encode()
        if byte == b"U":
            return self.unicode()
        raise Fault("InvalidUtf8AsciiStream")

    def unicode(self):
        first = self.unit()
        if not 0xD800 <= first < 0xE000:
            return chr(first).encode()
        if self.take() != b"\\" or self.look() not in (b"u", b"U"):
            raise Fault("InvalidUtf16String")
        self.take()
        second = self.unit()
        if not (first < 0xDC00 <= second < 0xE000):
            raise Fault("InvalidUtf16String")
        return chr(0x10000 + (first - 0xD800 << 10) + second - 0xDC00).encode()

    def unit(self):
        digits = self.take(4)
        if not set(digits) <= HEXADECIMAL:
            raise Fault("InvalidUtf16String")
        return int(digits, 16)


def utf8(text):
    try:
        text.decode()
    except UnicodeDecodeError:
        raise Fault("InvalidUtf8AsciiStream") from None
    return text


def integer_of_text(text):
    """Returns the integer of a text, or None."""
    if text.startswith(b"0x"):
        while text.startswith(b"0x"):
            text = text[2:]
        digits = text[1:] if text.startswith(b"+") else text
        value = int(digits, 16) if digits and set(digits) <= HEXADECIMAL else None
        return value if value is not None and value < 1 << 64 else None
    digits = text[1:] if text[:1] in (b"+", b"-") else text
    if not digits or not set(digits) <= set(b"0123456789"):
        return None
    value = -int(digits) if text.startswith(b"-") else int(digits)
    return value if -1 << 63 <= value < 1 << 64 else None


# ---- the format, and values

def items_of_input(data, most):
    """Returns the items of a file in its format, including faults."""
    if data.startswith(MAGIC):
        events, fault = binary_items(data, most)
        return events + ([fault] if fault else [])
    start = 3 if data.startswith(b"\xef\xbb\xbf") else 0
    behind = data[start:].lstrip(b"\t\n\x0c\r ")
    if behind.startswith(b"<"):
        return [Fault("XmlUnsupported", len(data) - len(behind))]
    return list(Ascii(data).items())


class Open:
    """A collection that isn't complete: its items, or its pairs and the key without a value."""

    def __init__(self, is_array):
        self.value = [] if is_array else {}
        self.key = None

    def wants_key(self):
        return isinstance(self.value, dict) and self.key is None

    def add(self, value):
        if isinstance(self.value, list):
            self.value.append(value)
        else:
            self.value[self.key] = value
            self.key = None


def value_of(items):
    """Returns the value of these items: a list, a dict, or the event of a scalar."""
    root, open_ones = None, []
    for item in items:
        if isinstance(item, Fault):
            raise item
        found = item[0]
        if root is not None:
            raise Fault(f"ExpectedEndOfEventStream {{ found: {found} }}")
        value = item
        if open_ones and open_ones[-1].wants_key() and found != "EndCollection":
            if found != "String":
                raise Fault(f"UnexpectedEventType {{ expected: DictionaryKeyOrEndCollection, found: {found} }}")
            open_ones[-1].key = item[1]
            continue
        if found in ("StartArray", "StartDictionary"):
            open_ones.append(Open(found == "StartArray"))
            continue
        if found == "EndCollection":
            if not open_ones or open_ones[-1].key is not None:
                raise Fault("UnexpectedEventType { expected: ValueOrStartCollection, found: EndCollection }")
            value = open_ones.pop().value
        if open_ones:
            open_ones[-1].add(value)
        else:
            root = value
    if root is None:
        raise Fault("UnexpectedEndOfEventStream")
    return root


# ---- writing

def least_width(value):
    return next(width for width in (1, 2, 4, 8) if value < 1 << 8 * width)


def natural(value):
    width = least_width(value)
    return bytes([0x10 + width.bit_length() - 1]) + value.to_bytes(width, "big")


def with_length(high, count, content):
    return (bytes([high << 4 | count]) if count < 15 else bytes([high << 4 | 15]) + natural(count)) + content


def form_of(event):
    """Returns the bytes of a scalar."""
    name, value = event
    if name == "Boolean":
        return b"\x09" if value else b"\x08"
    if name == "Integer":
        if value < 0:
            return b"\x13" + value.to_bytes(8, "big", signed=True)
        return natural(value) if value < 1 << 63 else b"\x14" + value.to_bytes(16, "big")
    if name == "Uid":
        width = least_width(value)
        return bytes([0x7F + width]) + value.to_bytes(width, "big")
    if name == "Real":
        return (b"\x22" if len(value) == 4 else b"\x23") + value
    if name == "Date":
        return b"\x33" + value
    if name == "Data":
        return with_length(0x4, len(value), value)
    if value.isascii():
        return with_length(0x5, len(value), value)
    units = value.decode().encode("utf-16-be")
    return with_length(0x6, len(units) // 2, units)


class Writing:
    """The numbers of the objects of a value, and their contents."""

    def __init__(self, value):
        self.numbers, self.count, self.order = {}, 1, []
        self.place(value, 0)

    def number_for(self, child):
        """Returns the number of the next child of the current collection."""
        if isinstance(child, tuple) and child in self.numbers:
            return self.numbers[child]
        self.count += 1
        if isinstance(child, tuple):
            self.numbers[child] = self.count - 1
        return self.count - 1

    def place(self, root, number_of_root):
        """Puts the objects in the order of the file. A scalar is placed where it first occurs."""
        placed, waiting = set(), [(root, number_of_root)]
        while waiting:
            child, number_of_child = waiting.pop()
            if isinstance(child, tuple):
                if number_of_child not in placed:
                    placed.add(number_of_child)
                    self.order.append((number_of_child, child))
                continue
            keys = [("String", key) for key in child] if isinstance(child, dict) else []
            values = list(child.values()) if isinstance(child, dict) else child
            below = [(one, self.number_for(one)) for one in keys + values]
            references = [number_of_one for _, number_of_one in below]
            self.order.append((number_of_child, (child, references)))
            waiting.extend(reversed(below))


def file_of(value, writing=Writing):
    """Returns the binary property list of a value."""
    plan = writing(value)
    width = least_width(plan.count - 1)
    places, file = [0] * plan.count, bytearray(MAGIC)
    for number_of_one, one in plan.order:
        places[number_of_one] = len(file)
        if isinstance(one[0], (list, dict)):
            child, references = one
            content = b"".join(reference.to_bytes(width, "big") for reference in references)
            file += with_length(0xA if isinstance(child, list) else 0xD, len(child), content)
        else:
            file += form_of(one)
    table = len(file)
    offset_width = least_width(table)
    file += b"".join(place.to_bytes(offset_width, "big") for place in places)
    file += bytes(6) + bytes([offset_width, width]) + struct.pack(">QQQ", plan.count, 0, table)
    return bytes(file)


# ---- the lines of print

def line_of(event):
    name, *content = event
    if not content or content == [None]:
        return name
    value, = content
    if name == "String":
        shown = (chr(byte) if 0x20 <= byte < 0x7F and byte not in b'"\\' else f"\\x{byte:02x}" for byte in value)
        return f'String "{"".join(shown)}"'
    if name == "Date":
        seconds = struct.unpack(">d", value)[0]
        whole = math.floor(seconds)
        return f"Date {whole}" + ("" if whole == seconds else f" {value.hex()}")
    if isinstance(value, bool):
        return f"{name} {str(value).lower()}"
    if isinstance(value, bytes):
        return f"{name} {value.hex()}".rstrip()
    return f"{name} {value}"
