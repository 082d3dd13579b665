"""Reads and writes Apple's property lists, by readers and writers that are proved.

The binary form and the older ASCII form are read, and the binary form is written. The values are
those of ``plistlib``: ``dict``, ``list``, ``str``, ``bytes``, ``bool``, ``int``, ``float``,
``datetime.datetime`` without a time zone, and ``plistlib.UID``.

    >>> import sizhetom
    >>> sizhetom.loads(sizhetom.dumps({"Name": "Example", "Sizes": [1, 2]}))
    {'Name': 'Example', 'Sizes': [1, 2]}

The default limits are safe for a file from a stranger. ``None`` means no limit.
"""
from __future__ import annotations

import datetime
from plistlib import UID
from typing import IO, Any, Iterator, Optional, Union

from . import _sizhetom
from ._errors import PlistError
from ._sizhetom import Event

__all__ = ["Event", "PlistError", "UID", "dump", "dumps", "events", "load", "loads"]

PlistError.__module__ = __name__

__version__ = "0.1.0"

# What `dumps` takes. The items and values of collections have the same types, and keys are strings.
Value = Union[dict, list, tuple, str, bytes, bytearray, bool, int, float, datetime.datetime, UID]

MAX_DEPTH = 64
MAX_EVENTS = 1_000_000
MAX_BYTES = 16 << 20


def loads(
    data: Union[bytes, bytearray, memoryview],
    *,
    max_depth: Optional[int] = MAX_DEPTH,
    max_events: Optional[int] = MAX_EVENTS,
    max_bytes: Optional[int] = MAX_BYTES,
) -> Any:
    """Returns the value of a property list.

    At most ``max_depth`` collections may be open at once. There may be at most ``max_events`` events:
    a scalar is one, and a collection has a start and an end. All strings and data together may have
    at most ``max_bytes`` bytes, strings in UTF-8, as often as the file refers to them.

    Raises ``PlistError`` if the input isn't a property list or exceeds a limit, and ``MemoryError``
    if there isn't enough memory.
    """
    return _sizhetom.loads(data, max_depth, max_events, max_bytes)


def load(
    file: IO[bytes],
    *,
    max_depth: Optional[int] = MAX_DEPTH,
    max_events: Optional[int] = MAX_EVENTS,
    max_bytes: Optional[int] = MAX_BYTES,
) -> Any:
    """Returns the value of the property list in a file that is open for reading in binary mode.

    The whole file is read into memory first. The rest is as for ``loads``.
    """
    return _sizhetom.loads(file.read(), max_depth, max_events, max_bytes)


def events(
    data: Union[bytes, bytearray, memoryview],
    *,
    max_depth: Optional[int] = MAX_DEPTH,
    max_events: Optional[int] = MAX_EVENTS,
    max_bytes: Optional[int] = MAX_BYTES,
) -> Iterator[Event]:
    """Returns an iterator over the events of a property list.

    An event is a named tuple: ``kind`` is ``"StartArray"``, ``"StartDictionary"``,
    ``"EndCollection"``, ``"Boolean"``, ``"Data"``, ``"Date"``, ``"Integer"``, ``"Real"``,
    ``"String"`` or ``"Uid"``. ``value`` is the value of a scalar, the number of items or pairs of a
    start (``None`` in an ASCII file), or ``None`` for an end. For a date outside the years 1 to 9999 it is
    ``None``, too. ``bits`` are the four or eight bytes of a real or a date, or ``None``.

    The events of an ASCII file need not form one value; only ``loads`` tests that. The input is
    read when this function is called. The iterator raises ``PlistError`` after the events that
    precede a fault. The limits are those of ``loads``.
    """
    return _sizhetom.events(data, max_depth, max_events, max_bytes)


def dumps(value: Value, *, share: bool = False) -> bytes:
    """Returns the binary property list of a value.

    Dictionaries keep the order of their keys. If ``share`` is true, equal lists and dictionaries are
    stored once in the file.

    Raises ``TypeError`` for a value or a key of another type, ``OverflowError`` for an integer below
    -2**63 or from 2**64 on, ``UnicodeEncodeError`` for a string with a lone surrogate, and
    ``PlistError`` for a collection that contains itself.
    """
    return _sizhetom.dumps(value, share)


def dump(value: Value, file: IO[bytes], *, share: bool = False) -> None:
    """Writes the binary property list of a value to a file that is open for writing in binary mode.

    The arguments and the exceptions are those of ``dumps``.
    """
    file.write(_sizhetom.dumps(value, share))
