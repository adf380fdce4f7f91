"""Quantile sketches whose code is proved: KLL, which treats all ranks alike, and REQ, which keeps one end exact.

>>> latencies = Req(floats=True, seed=1)
>>> latencies.update_all([12.5, 3.25, 99.0])
>>> latencies.quantile(0.5), latencies.max, latencies.n
(12.5, 99.0, 3)
>>> latencies.rank(12.5)
Fraction(2, 3)
>>> latencies
<Req k=50 n=3 min=3.25 quartiles=3.25, 12.5, 99.0 max=99.0>

A sketch takes in whole numbers of 64 bits, or floats if it is made with ``floats=True``; -0.0 counts as 0.0, and NaN is
refused. A ``ValueError`` says what was refused, a ``MemoryError`` that memory ran out; the sketch is then as before.

The module needs only the standard library, and the shared object ``libmezgoular.so.1``: the file that
``MEZGOULAR_LIBRARY`` names, else the one beside this file, else that of a built clone, else an installed one. Threads may
share a sketch, since a call keeps the interpreter lock.
"""
from __future__ import annotations

import array
import ctypes
import numbers
import operator
import os
import secrets
from decimal import Decimal
from fractions import Fraction
from typing import Any, Callable, ClassVar, Dict, Iterable, List, Optional, Tuple, Type, TypeVar, Union

__all__ = ["Kll", "Req"]

_SELF = TypeVar("_SELF", bound="_Sketch")
_Fraction = Union[float, Fraction, Decimal]
_Pointer = ctypes.c_void_p
_i32, _i64, _u64, _size = ctypes.c_int32, ctypes.c_int64, ctypes.c_uint64, ctypes.c_size_t
_LEAST, _GREATEST = -(1 << 63), (1 << 63) - 1

_OK, _EMPTY, _OUT_OF_MEMORY, _BUFFER = 0, 1, -3, -6
_REFUSED = {
    -2: "the bytes are no image of this kind of sketch",
    -4: "there is no sketch: the object was not initialized",
    -5: "a sketch of whole numbers is used as one of floats, or the other way round",
    -7: "NaN has no rank",
}


class _Handle(ctypes.Structure):
    _fields_ = [("at", _Pointer)]


class _Info(ctypes.Structure):
    _fields_ = [("n", _u64), ("retained", _u64), ("k", ctypes.c_uint32), ("floats", ctypes.c_bool), ("req", ctypes.c_bool), ("high", ctypes.c_bool)]


class _Buffer(ctypes.Structure):
    """CPython's Py_buffer."""

    _fields_ = [
        ("buf", _Pointer), ("obj", _Pointer), ("len", ctypes.c_ssize_t), ("itemsize", ctypes.c_ssize_t),
        ("readonly", ctypes.c_int), ("ndim", ctypes.c_int), ("format", ctypes.c_char_p), ("shape", _Pointer),
        ("strides", _Pointer), ("suboffsets", _Pointer), ("internal", _Pointer),
    ]


def _open() -> ctypes.PyDLL:
    """The library. PyDLL keeps the interpreter lock during a call."""
    name = "libmezgoular.so.1"
    here = os.path.dirname(os.path.abspath(__file__))
    given = os.environ.get("MEZGOULAR_LIBRARY")
    if given:
        return ctypes.PyDLL(given)
    for folder in (here, os.path.join(here, "..", "..", "c", "out")):
        if os.path.exists(os.path.join(folder, name)):
            return ctypes.PyDLL(os.path.join(folder, name))
    try:
        return ctypes.PyDLL(name)
    except OSError:
        raise ImportError(f"{name} isn't there: bindings/c/build makes it, or MEZGOULAR_LIBRARY is its path") from None


_library = _open()
_get_buffer = ctypes.pythonapi.PyObject_GetBuffer
_get_buffer.argtypes = [ctypes.py_object, ctypes.POINTER(_Buffer), ctypes.c_int]
_release_buffer = ctypes.pythonapi.PyBuffer_Release
_release_buffer.argtypes = [ctypes.POINTER(_Buffer)]
_release_buffer.restype = None


def _calls() -> Dict[str, Any]:
    """The library's functions by their names without the beginning mz_."""
    handle, flag, count, item = ctypes.POINTER(_Handle), ctypes.c_bool, ctypes.POINTER(_u64), ctypes.POINTER(_i64)
    shapes: Dict[str, List[Any]] = {
        "kll_new": [ctypes.c_uint16, flag, _u64],
        "req_new": [ctypes.c_uint16, flag, flag, _u64],
        "free": [],
        "reset": [],
        "clone": [handle, _u64],
        "merge": [handle],
        "info": [ctypes.POINTER(_Info)],
        "serialize": [flag, _Pointer, _size, count],
        "deserialize": [flag, _Pointer, _size, _u64],
        "update": [flag, _i64],
        "update_all": [flag, _Pointer, _size],
        "update_weighted": [flag, _i64, _u64],
        "rank": [flag, _i64, flag, count, count],
        "quantile": [flag, _u64, _u64, flag, item],
        "masses": [flag, _Pointer, _size, flag, flag, _Pointer, _size],
        "ends": [flag, item, item],
    }
    found = {}
    for name, shape in shapes.items():
        call = _library["mz_" + name]
        call.argtypes = [handle, *shape]
        call.restype = None if name == "free" else _i32
        found[name] = call
    return found


_c = _calls()


def _check(answer: int, invalid: str = "") -> bool:
    """True if there is an answer, False if the sketch is empty; `invalid` says what an argument should have been."""
    if answer == _OK:
        return True
    if answer == _EMPTY:
        return False
    if answer == _OUT_OF_MEMORY:
        raise MemoryError("out of memory in a quantile sketch")
    raise ValueError(_REFUSED.get(answer, invalid))


def _ratio(fraction: _Fraction) -> Tuple[int, int]:
    """A fraction as weight and total: of a float the decimal number that it prints as, so 0.07 is 7 / 100."""
    if isinstance(fraction, (numbers.Rational, Decimal)):
        exact = Fraction(fraction)
    elif isinstance(fraction, numbers.Real):
        exact = Fraction(float.__repr__(float(fraction)))
    else:
        raise TypeError("a fraction is a number")
    if not 0 <= exact <= 1:
        raise ValueError("a fraction is from 0 to 1")
    if exact.denominator >> 64:
        return round(exact * (1 << 53)), 1 << 53
    return exact.numerator, exact.denominator


class _Items:
    """The items of a buffer where they lie, or of an iterable in an array, as (address, count) within a `with`."""

    def __init__(self, items: Any, floats: bool) -> None:
        self._view = _Buffer()
        self._source: Any = None
        code = "d" if floats else "q"
        try:
            view: Optional[memoryview] = memoryview(items)
        except (TypeError, ValueError, BufferError):
            view = None
        if view is not None:
            layout = view.format.lstrip("@=<")
            is_native = view.itemsize == 8 and layout in (("d",) if floats else ("q", "l"))
            try:
                if not view.c_contiguous:
                    view = memoryview(view.tobytes()).cast(layout)
                if not is_native:
                    items = view.cast("B").cast(layout).tolist()
                self._source = view if is_native else None
            except (NotImplementedError, ValueError, TypeError):
                self._source = None  # a buffer of another byte order or shape: its items one by one
        if self._source is None:
            try:
                self._source = array.array(code, items)
            except OverflowError:
                raise ValueError("an item doesn't fit 64 bits") from None

    def __enter__(self) -> Tuple[int, int]:
        _get_buffer(self._source, self._view, 0)  # PyBUF_SIMPLE: contiguous bytes
        return self._view.buf or ctypes.addressof(self._view), self._view.len // 8

    def __exit__(self, *what: Any) -> None:
        _release_buffer(self._view)


class _Sketch:
    """What both families share."""

    __slots__ = ("_handle", "_floats", "__weakref__")
    _is_req: ClassVar[bool]
    _handle: _Handle
    _floats: bool

    def __new__(cls: Type[_SELF], *_: Any, **__: Any) -> _SELF:
        self = super().__new__(cls)
        self._handle = _Handle()
        self._floats = False
        return self

    def __del__(self) -> None:
        _c["free"](self._handle)

    @staticmethod
    def _seed(seed: Optional[int]) -> int:
        seed = secrets.randbits(64) if seed is None else operator.index(seed)
        if seed >> 64:
            raise ValueError("a seed is from 0 to 2**64 - 1")
        return seed

    @staticmethod
    def _accuracy(k: int) -> int:
        """k, or 0, which no sketch takes."""
        k = operator.index(k)
        return k if 0 < k < 1 << 16 else 0

    def _call(self, name: str, *more: Any, invalid: str = "") -> bool:
        return _check(_c[name](self._handle, *more), invalid)

    def _ask(self, name: str, *more: Any, invalid: str = "") -> bool:
        """A call about items of the sketch's kind."""
        return self._call(name, self._floats, *more, invalid=invalid)

    def _item(self, item: float) -> int:
        if self._floats:
            try:
                return _i64.from_buffer(ctypes.c_double(item)).value
            except OverflowError:
                raise ValueError("an item doesn't fit 64 bits") from None
        whole = operator.index(item)  # type: ignore[arg-type]
        if not _LEAST <= whole <= _GREATEST:
            raise ValueError("an item doesn't fit 64 bits")
        return whole

    def _back(self, box: Any) -> float:
        found: float = ctypes.c_double.from_buffer(box).value if self._floats else box.value
        return found

    def update(self, item: float) -> None:
        """Takes in one item."""
        answer = _c["update"](self._handle, self._floats, self._item(item))
        if answer != _OK:
            _check(answer, "the sketch is full")

    def update_all(self, items: Iterable[float]) -> None:
        """Takes in all items, or none of them if it fails. A buffer of 64-bit numbers, such as an array or numpy's, is read
        where it lies; of other iterables an array is made first."""
        with _Items(items, self._floats) as (address, count):
            self._ask("update_all", address, count, invalid="the sketch is full")

    def merge(self: _SELF, other: _SELF) -> None:
        """Takes in what another sketch of this family and kind of items holds."""
        if not isinstance(other, _Sketch) or other._is_req is not self._is_req:
            raise TypeError("only a sketch of the same family can be merged")
        source = self.copy() if other is self else other
        self._call("merge", source._handle, invalid="one sketch is of high ranks and one of low ranks, or together they are full")

    def rank(self, item: float, inclusive: bool = True) -> Optional[Fraction]:
        """The share of the items that are at most `item`, or below it if not `inclusive`; None for an empty sketch."""
        weight, total = _u64(), _u64()
        found = self._ask("rank", self._item(item), inclusive, weight, total)
        return Fraction(weight.value, total.value) if found else None

    def quantile(self, fraction: _Fraction, inclusive: bool = True) -> Optional[float]:
        """The item at a fraction: 0.5 is the median, 0 the least item, 1 the greatest; None for an empty sketch.
        A float counts as the decimal number that it prints as; a Fraction or a Decimal is exact."""
        box = _i64()
        return self._back(box) if self._ask("quantile", *_ratio(fraction), inclusive, box) else None

    def quantiles(self, fractions: Iterable[_Fraction], inclusive: bool = True) -> List[Optional[float]]:
        """The item at each fraction."""
        return [self.quantile(fraction, inclusive) for fraction in fractions]

    def _masses(self, points: Iterable[float], inclusive: bool, steps: bool) -> Optional[List[Fraction]]:
        with _Items(points, self._floats) as (address, count):
            weights = (_u64 * (count + 1))()
            found = self._ask("masses", address, count, inclusive, steps, weights, count + 1, invalid="points must increase")
        return [Fraction(weight, self.n) for weight in weights] if found else None

    def cdf(self, points: Iterable[float], inclusive: bool = True) -> Optional[List[Fraction]]:
        """The rank of each point, and last 1. The points increase; None for an empty sketch."""
        return self._masses(points, inclusive, False)

    def pmf(self, points: Iterable[float], inclusive: bool = True) -> Optional[List[Fraction]]:
        """The share of the items before the first point, between each two, and after the last."""
        return self._masses(points, inclusive, True)

    def _ends(self) -> Tuple[Optional[float], Optional[float]]:
        least, greatest = _i64(), _i64()
        return (self._back(least), self._back(greatest)) if self._ask("ends", least, greatest) else (None, None)

    @property
    def min(self) -> Optional[float]:
        """The least item of the stream, or None."""
        return self._ends()[0]

    @property
    def max(self) -> Optional[float]:
        """The greatest item of the stream, or None."""
        return self._ends()[1]

    def _info(self) -> _Info:
        info = _Info()
        self._call("info", info)
        return info

    @property
    def n(self) -> int:
        """The number of items taken in."""
        return int(self._info().n)

    @property
    def k(self) -> int:
        """The accuracy: a sketch with a greater k keeps more items and answers better."""
        return int(self._info().k)

    @property
    def retained(self) -> int:
        """The number of items kept."""
        return int(self._info().retained)

    @property
    def floats(self) -> bool:
        """Whether the items are floats."""
        return self._floats

    def to_bytes(self, plain: bool = False) -> bytes:
        """The image of the sketch, with a frame of 8 bytes that says what it is, unless `plain`."""
        size, room = _u64(), 8 * self._info().retained + 4096
        while True:
            buffer = ctypes.create_string_buffer(room)
            answer = _c["serialize"](self._handle, plain, buffer, room, size)
            if answer != _BUFFER:
                _check(answer)
                return buffer.raw[: size.value]
            room = size.value

    @classmethod
    def from_bytes(cls: Type[_SELF], image: bytes, seed: Optional[int] = None) -> _SELF:
        """The sketch of an image. An image without a frame is one of whole numbers. The seed gives its further coins."""
        self = cls.__new__(cls)
        image = bytes(image)
        self._call("deserialize", self._is_req, image or b"\0", len(image), self._seed(seed))
        self._floats = self._info().floats
        return self

    def copy(self: _SELF, seed: Optional[int] = None) -> _SELF:
        """A sketch that holds the same, with coins of its own."""
        twin = self.__new__(type(self))
        twin._call("clone", self._handle, self._seed(seed))
        twin._floats = self._floats
        return twin

    def __copy__(self: _SELF) -> _SELF:
        return self.copy()

    def __deepcopy__(self: _SELF, memo: Any) -> _SELF:
        return self.copy()

    def __reduce__(self) -> Tuple[Callable[[bytes], _Sketch], Tuple[bytes]]:
        return type(self).from_bytes, (self.to_bytes(),)

    def reset(self) -> None:
        """Empties the sketch; k and the kind of its items stay."""
        self._call("reset")

    def __repr__(self) -> str:
        info = self._info()
        text = f"<{type(self).__name__} k={info.k} n={info.n}"
        if info.n:
            quartiles = ", ".join(str(item) for item in self.quantiles([0.25, 0.5, 0.75]))
            text += f" min={self.min} quartiles={quartiles} max={self.max}"
        return text + ">"


class Kll(_Sketch):
    """A KLL sketch: the error of a rank is the same share of all items, at each rank.

    k is from 8 to 65535. The seed gives the coins; without one they are random."""

    __slots__ = ()
    _is_req = False

    def __init__(self, k: int = 200, *, floats: bool = False, seed: Optional[int] = None) -> None:
        self._call("kll_new", self._accuracy(k), floats, self._seed(seed), invalid="k of a KLL sketch is from 8 to 65535")
        self._floats = bool(floats)

    def update_weighted(self, item: float, weight: int) -> None:
        """Takes in an item that stands for `weight` equal ones, from 1 to 2**61 - 1."""
        count = operator.index(weight)
        if not 0 < count < 1 << 61:
            raise ValueError("a weight is from 1 to 2**61 - 1")
        self._ask("update_weighted", self._item(item), count, invalid="the sketch is full")


class Req(_Sketch):
    """A REQ sketch: the greatest items are exact, or the least if not `high`, and errors shrink towards that end.

    k is even, from 4 to 1024. The seed gives the coins; without one they are random."""

    __slots__ = ()
    _is_req = True

    def __init__(self, k: int = 50, *, high: bool = True, floats: bool = False, seed: Optional[int] = None) -> None:
        self._call("req_new", self._accuracy(k), high, floats, self._seed(seed), invalid="k of a REQ sketch is even, from 4 to 1024")
        self._floats = bool(floats)

    @property
    def high(self) -> bool:
        """Whether the greatest items are exact, else the least."""
        return bool(self._info().high)
