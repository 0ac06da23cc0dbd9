"""Memory lent to a call: anything with the buffer protocol, without a copy."""

from __future__ import annotations

import ctypes
import operator
import sys
from typing import TYPE_CHECKING, Any, List, Tuple

from . import _library
from .refusals import Refusal

if TYPE_CHECKING and sys.version_info >= (3, 12):
    from collections.abc import Buffer
else:
    Buffer = Any

_LIBRARY = _library.load()
_VALUES_MOST = 5
_LARGEST = (1 << 64) - 1
# No call carries this value: where it stays in `values`, none was put.
_NONE = _LARGEST
_Values = ctypes.c_uint64 * _VALUES_MOST

_ND, _FORMAT, _WRITABLE, _C_CONTIGUOUS = 0x0008, 0x0004, 0x0001, 0x0038
# The address of an empty slice: aligned, and never read.
_EMPTY = ctypes.c_uint64(0)


class _View(ctypes.Structure):
    """Py_buffer of Python's C interface."""

    _fields_ = [
        ("buf", ctypes.c_void_p),
        ("obj", ctypes.c_void_p),
        ("len", ctypes.c_ssize_t),
        ("itemsize", ctypes.c_ssize_t),
        ("readonly", ctypes.c_int),
        ("ndim", ctypes.c_int),
        ("format", ctypes.c_char_p),
        ("shape", ctypes.c_void_p),
        ("strides", ctypes.c_void_p),
        ("suboffsets", ctypes.c_void_p),
        ("internal", ctypes.c_void_p),
    ]


_get = ctypes.pythonapi.PyObject_GetBuffer
_get.argtypes = [ctypes.py_object, ctypes.POINTER(_View), ctypes.c_int]
_get.restype = ctypes.c_int
_release = ctypes.pythonapi.PyBuffer_Release
_release.argtypes = [ctypes.POINTER(_View)]
_release.restype = None


class Elements:
    """The kind of a slice's elements: their size, and the formats of a buffer that has them."""

    def __init__(self, name: str, size: int, formats: str) -> None:
        self.name = name
        self.size = size
        self.formats = formats


# A buffer of bytes serves for elements of every kind, if it is aligned and of whole elements.
_BYTES = "Bbc?"
U8 = Elements("bytes", 1, _BYTES)
U16 = Elements("16-bit words", 2, "Hh")
U32 = Elements("32-bit words", 4, "IiLl")
U64 = Elements("64-bit words", 8, "QqLl")
F32 = Elements("32-bit floats", 4, "f")


class Slice:
    """A buffer as a slice of a call, which may write it or only read it."""

    def __init__(self, name: str, kind: Elements, buffer: Buffer, writes: bool) -> None:
        self.name = name
        self.kind = kind
        self.buffer = buffer
        self.writes = writes
        self.view = _View()

    def take(self) -> Tuple[int, int]:
        """Takes hold of the buffer; answers its address and its number of elements."""
        flags = _ND | _FORMAT | _C_CONTIGUOUS | (_WRITABLE if self.writes else 0)
        _get(self.buffer, ctypes.byref(self.view), flags)
        try:
            return self._fits()
        except BaseException:
            self.give_back()
            raise

    def _fits(self) -> Tuple[int, int]:
        kind, view = self.kind, self.view
        form = (view.format or b"B").decode().lstrip("@=<" if sys.byteorder == "little" else "@=>")
        if form not in tuple(_BYTES) and not (form in tuple(kind.formats) and view.itemsize == kind.size):
            raise TypeError(f"{self.name} has elements of format '{form}', and {kind.name} are due")
        if view.len % kind.size:
            raise ValueError(f"{self.name} has {view.len} bytes, which are no whole {kind.name}")
        if view.len == 0:
            return ctypes.addressof(_EMPTY), 0
        if view.buf % kind.size:
            raise ValueError(f"{self.name} is not aligned for {kind.name}")
        return view.buf, view.len // kind.size

    def give_back(self) -> None:
        """Lets go of the buffer."""
        _release(ctypes.byref(self.view))


def reads(name: str, kind: Elements, buffer: Buffer) -> Slice:
    """A slice that the call only reads."""
    return Slice(name, kind, buffer, False)


def writes(name: str, kind: Elements, buffer: Buffer) -> Slice:
    """A slice that the call may write."""
    return Slice(name, kind, buffer, True)


def _size(value: Any) -> int:
    """A number of any size. What no size can hold is passed as the largest, which is refused for the same cause."""
    number = operator.index(value)
    return number if 0 <= number <= _LARGEST else _LARGEST


def _apart(taken: List[Tuple[Slice, int, int]]) -> None:
    """A slice that a call may write overlaps no other."""
    for place, (first, start, end) in enumerate(taken):
        for second, other_start, other_end in taken[:place]:
            if (first.writes or second.writes) and start < other_end and other_start < end:
                raise ValueError(f"{second.name} and {first.name} overlap, and the call writes one of them")


def ask(name: str, *arguments: Any) -> List[int]:
    """Calls a function of the library with slices and numbers; answers the values that it carries, or raises a Refusal."""
    passed: List[Any] = []
    taken: List[Tuple[Slice, int, int]] = []
    values = _Values(*[_NONE] * _VALUES_MOST)
    try:
        for argument in arguments:
            if isinstance(argument, Slice):
                address, length = argument.take()
                taken.append((argument, address, address + length * argument.kind.size))
                passed += [address, length]
            else:
                passed.append(_size(argument))
        _apart(taken)
        number = getattr(_LIBRARY, name)(*passed, ctypes.addressof(values), _VALUES_MOST)
    finally:
        for slice_, _, _ in taken:
            slice_.give_back()
    carried = [value for value in values if value != _NONE]
    if number:
        raise Refusal(number, tuple(carried))
    return carried
