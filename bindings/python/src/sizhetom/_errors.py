"""The exception for a fault of a property list, and the names that it uses."""

# The kinds of events, by their numbers. The last two are only named as what was expected.
EVENT_KINDS = (
    "",
    "StartArray",
    "StartDictionary",
    "EndCollection",
    "Boolean",
    "Data",
    "Date",
    "Integer",
    "Real",
    "String",
    "Uid",
    "ValueOrStartCollection",
    "DictionaryKeyOrEndCollection",
)

# The kinds of faults, by their numbers.
FAULT_KINDS = (
    "",
    "UnexpectedEof",
    "InvalidMagic",
    "InvalidTrailerObjectOffsetSize",
    "InvalidTrailerObjectReferenceSize",
    "ObjectOffsetTooLarge",
    "ObjectReferenceTooLarge",
    "RecursiveObject",
    "NullObjectUnimplemented",
    "FillObjectUnimplemented",
    "UnknownObjectType",
    "IntegerOutOfRange",
    "OverflowOrNanDate",
    "FractionalDate",
    "InvalidUtf8String",
    "InvalidUtf16String",
    "UnclosedString",
    "IncompleteComment",
    "InvalidUtf8AsciiStream",
    "InvalidOctalString",
    "InvalidDateString",
    "UnexpectedEventType",
    "ExpectedEndOfEventStream",
    "UnexpectedEndOfEventStream",
    "Io",
    "OutOfMemory",
    "WriterFailed",
    "PlistTooLarge",
    "XmlUnsupported",
    "YearOutOfRange",
    "LimitReached",
    "NoRoom",
    "InvalidKind",
    "InvalidNumber",
    "InvalidRange",
    "InvalidText",
)

# The limits, by their numbers.
LIMITS = ("Depth", "Items")


class PlistError(ValueError):
    """A property list has a fault, or exceeds a limit.

    ``kind`` is the name of the fault, for example ``"RecursiveObject"``. ``offset`` is the offset of
    the fault in the input, or ``None``. ``str`` returns the text that the program ``plist_tool``
    prints, for example ``RecursiveObject (offset 8)``.
    """

    def __init__(self, kind, offset=None, details=""):
        super().__init__(kind, offset, details)
        self.kind = kind
        self.offset = offset
        self._details = details

    def __str__(self):
        where = "" if self.offset is None else f" (offset {self.offset})"
        return f"{self.kind}{self._details}{where}"


def _details_of(kind, detail, expected):
    """Returns what is printed after the name of a fault's kind."""
    if kind == "UnknownObjectType":
        return f"({detail})"
    if kind == "LimitReached":
        return f"({LIMITS[detail]})"
    if kind == "UnexpectedEventType":
        return f" {{ expected: {EVENT_KINDS[expected]}, found: {EVENT_KINDS[detail]} }}"
    if kind == "ExpectedEndOfEventStream":
        return f" {{ found: {EVENT_KINDS[detail]} }}"
    return ""


def error_of(fault, detail, expected, has_offset, offset):
    """Returns the exception for the outcome of a call, which has the fields of ``sizhetom_outcome``."""
    kind = FAULT_KINDS[fault]
    if kind == "NoRoom":
        # The memory grows, so the only thing without room is the limit on bytes.
        return PlistError("LimitReached", None, "(Bytes)")
    return PlistError(kind, offset if has_offset else None, _details_of(kind, detail, expected))
