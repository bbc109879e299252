"""What is lent to a call: memory without a copy, and numbers.

A call gives back what was lent (`del`) before it raises a refusal, whose traceback would hold it: a bytearray that is lent cannot grow.
"""

from __future__ import annotations

import array
import ctypes
import mmap
import operator
import sys
from typing import TYPE_CHECKING, Any, Iterable, NamedTuple, SupportsIndex, Union

if sys.version_info >= (3, 12):
    from collections.abc import Buffer as Buffer  # by its name, so that type checkers see it in this module

    Writable = Buffer
else:
    if TYPE_CHECKING:
        Array = array.array[int]
    else:
        Array = array.array  # takes no [int] where it runs

    Buffer = Union[bytes, bytearray, memoryview, Array, mmap.mmap]
    Writable = Union[bytearray, memoryview, Array, mmap.mmap]

Marks = Union[Buffer, Iterable[SupportsIndex]]


class Lent(NamedTuple):
    """Memory as a call takes it."""

    address: Union[int, bytes]
    length: int
    keeper: object  # holds the memory where it is


# An empty buffer may have no address, and a call is lent one.
NOTHING = ctypes.create_string_buffer(8)
EMPTY = Lent(ctypes.addressof(NOTHING), 0, NOTHING)


class PyBuffer(ctypes.Structure):
    """The struct of Python's buffer protocol."""

    _fields_ = [
        ("buf", ctypes.c_void_p),
        ("obj", ctypes.c_void_p),
        ("len", ctypes.c_ssize_t),
        ("itemsize", ctypes.c_ssize_t),
        ("readonly", ctypes.c_int),
        ("ndim", ctypes.c_int),
        ("format", ctypes.c_char_p),
        ("shape", ctypes.c_void_p),
        ("strides", ctypes.c_void_p),
        ("suboffsets", ctypes.c_void_p),
        ("internal", ctypes.c_void_p),
    ]


get_buffer = ctypes.pythonapi.PyObject_GetBuffer
get_buffer.argtypes = [ctypes.py_object, ctypes.POINTER(PyBuffer), ctypes.c_int]
release_buffer = ctypes.pythonapi.PyBuffer_Release
release_buffer.argtypes = [ctypes.POINTER(PyBuffer)]
release_buffer.restype = None


def address_of(view: memoryview) -> int:
    """Where the bytes of a view begin, which keeps them there."""
    found = PyBuffer()
    get_buffer(view, found, 0)
    address = found.buf
    release_buffer(found)
    return address or 0


def viewed(name: str, buffer: Buffer) -> memoryview:
    """A view of a buffer that can be lent: its bytes stand one behind the other."""
    try:
        view = memoryview(buffer)
    except TypeError:
        raise TypeError(f"{name} must be bytes, a bytearray or another buffer, not {type(buffer).__name__}") from None
    if not view.c_contiguous:
        raise BufferError(f"{name} is a memoryview that is not contiguous: pass bytes({name}), or the buffer that it is a view of")
    if view.itemsize != 1:
        raise TypeError(f"{name} has items of {view.itemsize} bytes: pass memoryview({name}).cast('B')")
    return view


def held(buffer: Union[bytearray, memoryview], length: int) -> Lent:
    """A writable buffer of so many bytes, one at least."""
    first = ctypes.c_char.from_buffer(buffer)
    return Lent(ctypes.addressof(first), length, first)


def lent_view(view: memoryview) -> Lent:
    """A view that can be lent. To ask for the address takes longer where it is read-only."""
    if not view.nbytes:
        return EMPTY
    return Lent(address_of(view), view.nbytes, view) if view.readonly else held(view, view.nbytes)


def lend(name: str, buffer: Buffer) -> Lent:
    """A buffer to be read."""
    if type(buffer) is bytes:
        return Lent(buffer, len(buffer), buffer)
    if type(buffer) is bytearray and buffer:
        return held(buffer, len(buffer))
    return lent_view(viewed(name, buffer))


def lend_to_write(name: str, buffer: Buffer, *others: Lent) -> Lent:
    """A buffer to be written, which must be writable and not overlap the others that are lent to the same call."""
    if type(buffer) is bytearray and buffer:
        lent = held(buffer, len(buffer))
    else:
        view = viewed(name, buffer)
        if view.readonly:
            raise TypeError(f"{name} is written to, and this {type(buffer).__name__} is read-only: pass a bytearray")
        lent = lent_view(view)
    for other in others:
        if overlap(lent, other):
            raise ValueError(f"{name} is written to, and overlaps another buffer of the call")
    return lent


def overlap(written: Lent, other: Lent) -> bool:
    """Have two buffers a byte in common? No bytes object has one in common with what may be written."""
    start, begin = written.address, other.address
    if isinstance(start, bytes) or isinstance(begin, bytes):
        return False
    return start < begin + other.length and begin < start + written.length


def lend_marks(marks: Marks) -> Lent:
    """The marks of a call, which may also be numbers."""
    if type(marks) is tuple and not marks:
        return EMPTY
    if isinstance(marks, (bytes, bytearray, memoryview, mmap.mmap)):
        return lend("marks", marks)
    numbers: Any = marks  # whatever can be gone through, also a buffer of another kind
    return lend("marks", bytes([byte(mark) for mark in numbers]))


def byte(number: SupportsIndex) -> int:
    """A number as a byte. 255 stands for all that is none: like these it is no width, symbol, place, reach, bay or quarter hour."""
    number = operator.index(number)
    return number if 0 <= number < 256 else 255


def record_number(number: SupportsIndex) -> int:
    """A number of 64 bits. 0 stands for all that is none: like these it is no record's number."""
    number = operator.index(number)
    return number if 0 <= number < 1 << 64 else 0
