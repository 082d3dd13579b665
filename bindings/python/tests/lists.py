"""Binary property lists, put together from the bytes of their objects."""
import contextlib
import functools
import struct
import threading


def file_of(*objects, width=1, reference=1):
    """Returns the file of these objects, the first of which is the root. Offsets have `width` bytes,
    and references have `reference`."""
    offsets, place = [], 8
    for content in objects:
        offsets.append(place.to_bytes(width, "big"))
        place += len(content)
    trailer = struct.pack(">6xBBQQQ", width, reference, len(objects), 0, place)
    return b"bplist00" + b"".join(objects) + b"".join(offsets) + trailer


def head(kind, length):
    """Returns the marker of an object of this kind, and its length."""
    if length < 15:
        return bytes([kind << 4 | length])
    return bytes([kind << 4 | 15, 0x12]) + length.to_bytes(4, "big")


def string(text):
    return head(5, len(text)) + text.encode()


def array(*items, reference=1):
    return head(10, len(items)) + b"".join(item.to_bytes(reference, "big") for item in items)


def dictionary(*pairs, reference=1):
    numbers = [key for key, _ in pairs] + [value for _, value in pairs]
    return head(13, len(pairs)) + b"".join(number.to_bytes(reference, "big") for number in numbers)


def repeated(content, times):
    """Returns the file of an array that refers to one object this often."""
    return file_of(array(*[1] * times), content, width=4)


@functools.lru_cache(2)
def levels(count):
    """Returns the file of this many arrays, each in the one before it."""
    inner = [array(number, reference=4) for number in range(1, count)]
    return file_of(*inner, array(), width=4, reference=4)


@functools.lru_cache(2)
def dictionaries(count):
    """Returns the file of this many dictionaries, each the value of a key in the one before it."""
    inner = [dictionary((count, number), reference=4) for number in range(1, count)]
    return file_of(*inner, dictionary(), string("key"), width=4, reference=4)


@contextlib.contextmanager
def small_stack(size):
    """Sets the size of the call stack of threads that are started."""
    before = threading.stack_size(size)
    try:
        yield
    finally:
        threading.stack_size(before)


def in_thread(function, size):
    """Returns what a function returns in a thread whose call stack has this size."""
    results = []
    with small_stack(size):
        thread = threading.Thread(target=lambda: results.append(function()))
        thread.start()
    thread.join()
    return results[0]
