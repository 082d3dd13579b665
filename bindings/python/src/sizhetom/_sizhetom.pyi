"""The extension: the functions of the archive, over Python's values."""
from typing import Any, Iterator, NamedTuple, Optional, Tuple, Union

class Event(NamedTuple):
    kind: str
    value: Any
    bits: Optional[bytes]

def loads(
    data: Union[bytes, bytearray, memoryview],
    max_depth: Optional[int],
    max_events: Optional[int],
    max_bytes: Optional[int],
    /,
) -> Any: ...
def events(
    data: Union[bytes, bytearray, memoryview],
    max_depth: Optional[int],
    max_events: Optional[int],
    max_bytes: Optional[int],
    /,
) -> Iterator[Event]: ...
def dumps(value: Any, share: bool, /) -> bytes: ...
def library_version() -> Tuple[int, int, int]: ...
