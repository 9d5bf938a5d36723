"""A capture as a table: columns in memory of libpmb_table.so (table/pmb_table.h), which the Arrow C stream
interface hands on without a copy. The rows are the objects of `pmb.json`: a `pmb.Reader` reads them, and
their lines go to that library as they come.

Neither that library nor this file is proved.
"""

import ctypes
import datetime
import os
from typing import (
    Any,
    AsyncIterable,
    Awaitable,
    Callable,
    Coroutine,
    Dict,
    Iterable,
    Iterator,
    List,
    Optional,
    Tuple,
    Union,
    overload,
)

from . import Error, Profile, Reader, _choice, _Devices, _Profiled
from ._library import LIBRARY, Result, released
from ._pieces import Content, Pieces, awaited_pieces, pieces_of, wrong_type

# ---- the structs of the Arrow C data and stream interfaces, by their specification


class _Schema(ctypes.Structure):
    pass


class _Array(ctypes.Structure):
    pass


class _Stream(ctypes.Structure):
    pass


_Schema._fields_ = [
    ("format", ctypes.c_char_p),
    ("name", ctypes.c_char_p),
    ("metadata", ctypes.c_char_p),
    ("flags", ctypes.c_int64),
    ("n_children", ctypes.c_int64),
    ("children", ctypes.POINTER(ctypes.POINTER(_Schema))),
    ("dictionary", ctypes.POINTER(_Schema)),
    ("release", ctypes.CFUNCTYPE(None, ctypes.POINTER(_Schema))),
    ("private_data", ctypes.c_void_p),
]
_Array._fields_ = [
    ("length", ctypes.c_int64),
    ("null_count", ctypes.c_int64),
    ("offset", ctypes.c_int64),
    ("n_buffers", ctypes.c_int64),
    ("n_children", ctypes.c_int64),
    ("buffers", ctypes.POINTER(ctypes.c_void_p)),
    ("children", ctypes.POINTER(ctypes.POINTER(_Array))),
    ("dictionary", ctypes.POINTER(_Array)),
    ("release", ctypes.CFUNCTYPE(None, ctypes.POINTER(_Array))),
    ("private_data", ctypes.c_void_p),
]
_Stream._fields_ = [
    ("get_schema", ctypes.CFUNCTYPE(ctypes.c_int, ctypes.POINTER(_Stream), ctypes.POINTER(_Schema))),
    ("get_next", ctypes.CFUNCTYPE(ctypes.c_int, ctypes.POINTER(_Stream), ctypes.POINTER(_Array))),
    ("get_last_error", ctypes.CFUNCTYPE(ctypes.c_char_p, ctypes.POINTER(_Stream))),
    ("release", ctypes.CFUNCTYPE(None, ctypes.POINTER(_Stream))),
    ("private_data", ctypes.c_void_p),
]

# ---- the library

_OK, _NO_MEMORY, _BAD_LINE, _IS_DATE, _IS_SECONDS, _BAD_DATE, _MIXED_ZONES = range(7)
_MOST_TIME = 48
_TIMES = ("seconds", "timestamp", "text")
_CAPSULE = ctypes.c_char_p(b"arrow_array_stream")
# Room for the lines of one piece of a capture, which is mostly enough.
_ROOM = 1 << 20
_NO_ROOM, _READER_NO_MEMORY, _READER_ENDED = 16, 18, 26


def _load() -> Optional[ctypes.CDLL]:
    """The library; or None, where the package has none."""
    path = os.path.join(released(), "libpmb_table.so")
    if not os.path.exists(path):
        return None
    library = ctypes.CDLL(path)
    at, status = ctypes.c_void_p, ctypes.c_int32
    for name, result, arguments in (
        ("open", at, [status]),
        ("add", status, [at, ctypes.c_void_p, ctypes.c_size_t]),
        ("end", status, [at]),
        ("rows", ctypes.c_int64, [at]),
        ("bytes", ctypes.c_size_t, [at]),
        ("fault", ctypes.c_int64, [at, ctypes.c_char_p]),
        ("stream", status, [at, ctypes.POINTER(_Stream)]),
        ("close", None, [at]),
        ("python", None, [at]),
        ("new_stream", at, [at, ctypes.POINTER(status)]),
        ("drop_stream", None, [at]),
    ):
        function = getattr(library, "pmb_table_" + name)
        function.restype = result
        function.argtypes = arguments
    return library


_TABLE = _load()
_NEW_CAPSULE: Any = None


def _capsules(library: ctypes.CDLL) -> Any:
    """PyCapsule_New. The library is told before how it finds the stream of a capsule."""
    global _NEW_CAPSULE
    if _NEW_CAPSULE is None:
        api = ctypes.pythonapi
        library.pmb_table_python(ctypes.cast(api.PyCapsule_GetPointer, ctypes.c_void_p))
        new = ctypes.PYFUNCTYPE(
            ctypes.py_object, ctypes.c_void_p, ctypes.c_char_p, ctypes.c_void_p
        )
        _NEW_CAPSULE = new(("PyCapsule_New", api))
    return _NEW_CAPSULE


def _raise(status: int) -> None:
    if status == _NO_MEMORY:
        raise MemoryError("no memory for the table")
    if status != _OK:
        raise RuntimeError("the status of the table is {}".format(status))


class _Columns:
    """The columns in the library's memory. The last that knows them closes them; streams that are under
    way stay."""

    def __init__(self, library: ctypes.CDLL, time: str) -> None:
        self.library = library
        self.at = library.pmb_table_open(_TIMES.index(time))
        if self.at is None:
            raise MemoryError("no memory for the table")

    def add(self, lines: Any, length: int) -> None:
        status = self.library.pmb_table_add(self.at, lines, length)
        if status >= _IS_DATE:
            self._raise_time(status)
        _raise(status)

    def _raise_time(self, status: int) -> None:
        found = ctypes.create_string_buffer(_MOST_TIME)
        line = self.library.pmb_table_fault(self.at, found)
        given = found.value.decode("ascii", "replace")
        why = {
            _IS_DATE: "the date {}: take time='timestamp' or time='text'",
            _IS_SECONDS: "the time {}, which is seconds: take time='seconds' or time='text'",
            _BAD_DATE: "the time {}, which is no date from 1678 to 2261: take time='text'",
            _MIXED_ZONES: "the date {}, and of the dates some have a zone and some have none:"
            " take time='text'",
        }[status]
        raise Error("BadTime", "time", "the packet in line {} has {}".format(line, why.format(given)))

    def __del__(self) -> None:
        if getattr(self, "at", None) is not None:
            self.library.pmb_table_close(self.at)


def _feed(columns: _Columns, reader: Reader, piece: Optional[bytes]) -> None:
    """Gives the objects that a piece of a capture completes to the columns, or those of its end."""
    at = reader._opened().at
    if piece is None:
        status = LIBRARY.pmb_reader_end(at)
    else:
        status = LIBRARY.pmb_reader_feed(at, piece, len(piece))
    reader._ended = status == _READER_ENDED
    _take(columns, reader, at)
    if status == _READER_NO_MEMORY:
        raise MemoryError("no memory to read on")


def _filled(columns: _Columns, reader: Reader, pieces: Iterator[bytes]) -> "Table":
    """The table of the objects of a capture, for one piece after the other."""
    while not reader.ended:
        _feed(columns, reader, next(pieces, None))
    return Table._of(columns, reader)


async def _awaited(
    columns: _Columns, reader: Reader, read: Callable[[], Awaitable[Content]]
) -> "Table":
    """The same of a capture whose pieces are waited for."""
    pieces: Iterator[bytes] = iter(())
    while not reader.ended:
        piece = next(pieces, None)
        if piece is not None:
            _feed(columns, reader, piece)
            continue
        try:
            pieces = Pieces("a piece of capture", [await read()])
        except StopAsyncIteration:
            _feed(columns, reader, None)
    return Table._of(columns, reader)


def _take(columns: _Columns, reader: Reader, at: Any) -> None:
    """Gives what is ready to the columns, as whole lines."""
    told, parts = reader._told, []
    while True:
        length = LIBRARY.pmb_reader_take(at, reader._room, len(reader._room), reader._told_at)
        if told.status != _NO_ROOM:
            break
        # (room for all, which the next pieces need too)
        parts.append(bytes(reader._written[:length]))
        reader._make_room(told.length)
    reader._packets, reader._refusals = told.packets, told.refusals
    if parts:
        lines = b"".join(parts) + bytes(reader._written[:length])
        columns.add(lines, len(lines))
    else:
        columns.add(reader._room, length)


@overload
def table(
    profile: _Profiled,
    capture: Union[Content, Iterable[Content]],
    devices: _Devices = None,
    *,
    late: bool = False,
    fixed_vout_mode: bool = False,
    keep_going: bool = False,
    time: str = "seconds",
) -> "Table": ...


@overload
def table(
    profile: _Profiled,
    capture: AsyncIterable[Content],
    devices: _Devices = None,
    *,
    late: bool = False,
    fixed_vout_mode: bool = False,
    keep_going: bool = False,
    time: str = "seconds",
) -> Coroutine[Any, Any, "Table"]: ...


def table(
    profile: _Profiled,
    capture: Any,
    devices: _Devices = None,
    *,
    late: bool = False,
    fixed_vout_mode: bool = False,
    keep_going: bool = False,
    time: str = "seconds",
) -> Any:
    """The packets of a capture, its refusals and bad words as a `Table`: a row for each, in their order,
    and a column for each key of the objects of `pmb.json`. The capture, the options and the errors are
    those of `pmb.transactions`. Of an `asyncio.StreamReader`, or another asynchronous iterable of pieces,
    the table is waited for: `await pmb.table(profile, stream)`. There is no `digits`: a value is the
    float64 that is nearest to the exact one, whose text stands in the column `exact`.

    `time` is what the column of this name has: `seconds`, as float64; `timestamp`, of a capture whose
    times are dates, in their zone; or `text`, what the capture has. A time of the other kind is a
    `BadTime`, and so is a date that isn't in the calendar.

        >>> import pmb
        >>> profile = "[[device]]\\naddress = 0x58\\npec = 'optional'"
        >>> table = pmb.table(profile, "# 0.5 s\\nS b0 A 88 A S b1 A 01 A d3 N P")
        >>> table.to_pydict(["time", "command", "value", "exact", "unit"])
        {'time': [0.5], 'command': ['READ_VIN'], 'value': [12.015625], 'exact': ['12.015625'], 'unit': ['V']}
        >>> pmb.table(profile, "# 0.5 s\\nS b0 A 03 A P", time="timestamp")
        Traceback (most recent call last):
        pmb.Error: BadTime in time: the packet in line 2 has the time 0.5, which is seconds: \
take time='seconds' or time='text'

    A package without the library for tables raises a `NotImplementedError`.
    """
    choice = _choice(devices, 6, late, fixed_vout_mode, keep_going)
    if not isinstance(time, str):
        raise wrong_type("time", "a str", time)
    if time not in _TIMES:
        raise Error("BadTime", "time", "one of {}, not {!r}".format(", ".join(_TIMES), time))
    if _TABLE is None:
        raise NotImplementedError("this package has no libpmb_table.so, which makes tables")
    is_awaited = hasattr(capture, "__aiter__")
    pieces: Any = awaited_pieces(capture) if is_awaited else pieces_of(capture)
    reader, columns = Reader._of(profile, choice), _Columns(_TABLE, time)
    reader._make_room(_ROOM)
    return _awaited(columns, reader, pieces) if is_awaited else _filled(columns, reader, pieces)


table.__module__ = "pmb"


class Table:
    """The rows of a capture, in columns, as `pmb.table` makes them. It is there for what takes Arrow's
    PyCapsule protocol, such as `pyarrow.table(it)`, `polars.DataFrame(it)` or DuckDB, which read it where
    it lies; without one of them `to_pydict` has the columns as lists. A table doesn't change.

        >>> import pmb
        >>> table = pmb.table("[[device]]\\naddress = 0x58\\npec = 'optional'", "S b0 A 03 A P S")
        >>> table
        <pmb.Table of 2 rows: 1 packets, 1 refusals>
        >>> len(table), table.columns[:6]
        (2, ['time', 'kind', 'device', 'name', 'page', 'code'])
    """

    __module__ = "pmb"

    def __init__(self) -> None:
        raise TypeError("a pmb.Table is made by pmb.table")

    @classmethod
    def _of(cls, columns: _Columns, reader: Reader) -> "Table":
        """The table of columns that have all that a reader has read."""
        _raise(columns.library.pmb_table_end(columns.at))
        made = cls.__new__(cls)
        made._columns, made._packets, made._refusals = columns, reader.packets, reader.refusals
        return made

    _columns: _Columns
    _packets: int
    _refusals: int

    @property
    def columns(self) -> List[str]:
        """The names of the columns, in their order.

            >>> import pmb
            >>> pmb.table("device = []", "").columns[-3:]
            ['at', 'line', 'column']
        """
        return [name for name, _ in self._described()]

    @property
    def packets(self) -> int:
        """How many packets there are; those to addresses that the profile ignores don't count.

            >>> import pmb
            >>> pmb.table("[[device]]\\naddress = 0x58\\npec = 'optional'", "S b0 A 03 A P").packets
            1
        """
        return self._packets

    @property
    def refusals(self) -> int:
        """How many refusals there are, words that are no token among them.

            >>> import pmb
            >>> pmb.table("device = []", "hm").refusals
            1
        """
        return self._refusals

    @property
    def nbytes(self) -> int:
        """How many bytes of memory the columns take.

            >>> import pmb
            >>> pmb.table("device = []", "").nbytes
            0
        """
        return int(self._columns.library.pmb_table_bytes(self._columns.at))

    def __len__(self) -> int:
        return int(self._columns.library.pmb_table_rows(self._columns.at))

    def __repr__(self) -> str:
        return "<pmb.Table of {} rows: {} packets, {} refusals>".format(
            len(self), self._packets, self._refusals
        )

    def __arrow_c_stream__(self, requested_schema: Optional[object] = None) -> object:
        """A PyCapsule of an ArrowArrayStream over the rows. The schema is the table's own, whatever is
        requested."""
        library, status = self._columns.library, ctypes.c_int32()
        new = _capsules(library)
        stream = library.pmb_table_new_stream(self._columns.at, ctypes.byref(status))
        _raise(status.value)
        try:
            return new(stream, _CAPSULE, ctypes.cast(library.pmb_table_drop_capsule, ctypes.c_void_p))
        except BaseException:
            library.pmb_table_drop_stream(stream)
            raise

    def to_pydict(self, columns: Optional[Iterable[str]] = None) -> Dict[str, List[Any]]:
        """The columns, or those that are named, as lists: numbers, truths, texts and lists of texts, and
        `None` where a row has no value. A timestamp is a `datetime`, of which what is below a
        microsecond is cut off. `pandas.DataFrame` takes what is returned. A name that no column has is a
        `KeyError`.

            >>> import pmb
            >>> profile = "[[device]]\\naddress = 0x58\\npec = 'optional'"
            >>> table = pmb.table(profile, "S b0 A 79 A S b1 A 00 A 88 N P S b0 A 03 A P")
            >>> table.to_pydict(["command", "bits"])
            {'command': ['STATUS_WORD', 'CLEAR_FAULTS'], 'bits': [['VOUT', 'POWER_GOOD_N'], None]}
        """
        described = self._described()
        if isinstance(columns, str):
            raise wrong_type("columns", "a list of names", columns)
        names = [name for name, _ in described]
        wanted = names if columns is None else list(columns)
        places = {name: names.index(name) if name in names else -1 for name in wanted}
        for name, place in places.items():
            if place < 0:
                raise KeyError("{!r} is no column: they are {}".format(name, ", ".join(names)))
        found: Dict[str, List[Any]] = {name: [] for name in wanted}
        for array in self._arrays():
            for name, place in places.items():
                values = _values(array.children[place].contents, described[place][1])
                found[name] += values
        return found

    def _stream(self) -> _Stream:
        stream = _Stream()
        library = self._columns.library
        _raise(library.pmb_table_stream(self._columns.at, ctypes.byref(stream)))
        return stream

    def _described(self) -> List[Tuple[str, str]]:
        """The name of each column, and its format."""
        stream, schema = self._stream(), _Schema()
        try:
            if stream.get_schema(ctypes.byref(stream), ctypes.byref(schema)) != 0:
                raise MemoryError("no memory for the table")
            children = [schema.children[i].contents for i in range(schema.n_children)]
            found = [(it.name.decode(), it.format.decode()) for it in children]
            schema.release(ctypes.byref(schema))
            return found
        finally:
            stream.release(ctypes.byref(stream))

    def _arrays(self) -> Iterator[_Array]:
        """The rows, in arrays, each of which is there until the next."""
        stream = self._stream()
        try:
            while True:
                array = _Array()
                if stream.get_next(ctypes.byref(stream), ctypes.byref(array)) != 0:
                    raise MemoryError("no memory for the table")
                if not array.release:
                    return
                try:
                    yield array
                finally:
                    array.release(ctypes.byref(array))
        finally:
            stream.release(ctypes.byref(stream))

    def __reduce__(self) -> Tuple[Any, ...]:
        raise TypeError("a pmb.Table has no copy: hand on what to_pydict returns, or an Arrow table")


# ---- the values of an array


def _memory(array: _Array, number: int, kind: Any, count: int) -> Any:
    """What a buffer has, as numbers of a kind. Only those that are asked for are read."""
    return (kind * count).from_address(array.buffers[number]) if count else []


def _texts(array: _Array) -> List[str]:
    offsets = _memory(array, 1, ctypes.c_int32, array.length + 1)
    whole = ctypes.string_at(array.buffers[2], offsets[array.length])
    return [
        whole[offsets[i] : offsets[i + 1]].decode("utf-8", "replace") for i in range(array.length)
    ]


def _lists(array: _Array) -> List[List[str]]:
    offsets = _memory(array, 1, ctypes.c_int32, array.length + 1)
    items = _texts(array.children[0].contents)
    return [items[offsets[i] : offsets[i + 1]] for i in range(array.length)]


def _names(array: _Array) -> List[Optional[str]]:
    numbers = _memory(array, 1, ctypes.c_int16, array.length)
    texts = _texts(array.dictionary.contents)
    # (a row without a value has the number 0 too, also where there is no text)
    return [texts[number] if texts else None for number in numbers]


def _flags(array: _Array) -> List[bool]:
    bits = _memory(array, 1, ctypes.c_uint8, (array.length + 7) // 8)
    return [bool(bits[i >> 3] >> (i & 7) & 1) for i in range(array.length)]


def _datetimes(array: _Array, zone: str) -> List[datetime.datetime]:
    where: Optional[datetime.timezone] = None
    if zone == "UTC":
        where = datetime.timezone.utc
    elif zone:
        minutes = 60 * int(zone[1:3]) + int(zone[4:6])
        where = datetime.timezone(datetime.timedelta(minutes=-minutes if zone[0] == "-" else minutes))
    begin = datetime.datetime(1970, 1, 1, tzinfo=datetime.timezone.utc)
    found = []
    for number in _memory(array, 1, ctypes.c_int64, array.length):
        moment = begin + datetime.timedelta(microseconds=number // 1000)
        found.append(moment.astimezone(where) if where else moment.replace(tzinfo=None))
    return found


_READ: Dict[str, Callable[[_Array], List[Any]]] = {
    "l": lambda array: list(_memory(array, 1, ctypes.c_int64, array.length)),
    "g": lambda array: list(_memory(array, 1, ctypes.c_double, array.length)),
    "b": _flags,
    "s": _names,
    "u": _texts,
    "+l": _lists,
}


def _values(array: _Array, form: str) -> List[Any]:
    """The values of a column, and None where a row has none."""
    if array.null_count == array.length:
        return [None] * array.length
    values = _datetimes(array, form[4:]) if form.startswith("tsn:") else _READ[form](array)
    if array.null_count == 0:
        return values
    valid = _memory(array, 0, ctypes.c_uint8, (array.length + 7) // 8)
    return [it if valid[i >> 3] >> (i & 7) & 1 else None for i, it in enumerate(values)]
