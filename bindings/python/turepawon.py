"""The roster engine from Python: which driver holds which duty, which changes may be made together, and why not.

A board has rows (duties) and values (drivers). Tables say what is legal, a roster says who holds what (None: nobody), and an Index of both answers.

>>> tables = Tables(3, 2)  # three duties, two drivers; a driver's key is the driver: nobody has two duties at once
>>> for duty in range(3):
...     tables.set_may_be_empty(duty, True)
...     for driver in range(2):
...         tables.set_legal(duty, driver, True)
...         tables.set_capacity(duty, driver, driver)
>>> index = Index.build(tables, [0, 1, None])
>>> index.assignment_feasible_after_edits([Edit(0, None), Edit(2, 0)])  # driver 0 could leave duty 0 for duty 2; to ask changes nothing
True
>>> index.apply([Edit(0, 1), Edit(1, 0)])  # two drivers change places
True
>>> index.apply([Edit(2, 0)])  # driver 0 cannot take duty 2 as well: the roster stays
False
>>> index.roster()
[1, 0, None]
>>> tables.set_sequence(1, 0, 20512)  # duty 1, which driver 0 has now, falls on 2026-02-28
>>> index = Index.build(tables, index.roster())
>>> calendar = index.driver_calendar(0, "20260214T081500Z")  # for the driver's telephone
>>> read_calendar(calendar)
[Duty(row=1, day=20512)]

Names are those of include/turepawon.h without the prefix, and what it says of each holds here; apply is its assignment_apply_edits. A refusal is an exception, Refused, with the engine's number; it changes nothing. What has the wrong type is a TypeError, and what is no number of 64 bits a ValueError.

The library is a shared object: the one that TUREPAWON_LIBRARY names, or libturepawon.so beside this file or in the repository's target/. Two lines make it, in the repository's root:

    tools/static-library
    cc -shared -o target/libturepawon.so -Wl,--whole-archive target/staticlib/libengine.a -Wl,--no-whole-archive

It is loaded at first use. Calls run without the interpreter's lock, so threads can ask at once, of one index too; who changes an index has it alone. Only ctypes is needed; Python 3.9 or later, Linux on x86-64.
"""

from __future__ import annotations

import ctypes
import datetime
import enum
import functools
import operator
import os
from dataclasses import dataclass, fields, replace
from pathlib import Path
from typing import Any, Dict, Iterable, Iterator, List, Optional, Sequence, Tuple

VERSION = "0.6.0"
ABI = 1

MOST_ROWS = 128
MOST_VALUES = 64
MOST_CANDIDATES = 64
MOST_DEPTH = 8
MOST_IN_ORDER = 128
LAST_DAY = 2932896
STAMP_LENGTH = 16
CALENDAR_ROOM = 16626

EMPTY = 2**64 - 1
ALL = EMPTY
NO_BUDGET = EMPTY


class Refusal(enum.IntEnum):
    """The refusals that have a name; later engines may have more."""

    SIZE = 1
    CANDIDATES = 2
    VALUE_OUT_OF_RANGE = 3
    ROW_OUT_OF_RANGE = 4
    ROW_NAMED_TWICE = 5
    FALSE_INDEX = 6
    TOO_LITTLE_ROOM = 7
    TOO_DEEP = 8
    MALFORMED_INPUT = 9
    BAD_CURSOR = 10
    DAY_OUT_OF_RANGE = 11
    BAD_CALENDAR = 13
    NO_DUTY = 16
    BAD_STAMP = 17


class Refused(Exception):
    """The engine refused what it was handed, and changed nothing."""

    def __init__(self, number: int) -> None:
        self.number = int(number)
        named = any(number == refusal for refusal in Refusal)
        super().__init__(f"refused ({number}): {Refusal(number).name if named else 'a number without a name here'}")


class LibraryError(Exception):
    """There is no library, or it is not the one that this module was written for."""


@dataclass(frozen=True)
class Edit:
    """A row, and the value that it gets; None is empty."""

    row: int
    value: Optional[int]


@dataclass(frozen=True)
class Conflict:
    """A capacity key with more than one holder, and its holders in order."""

    key: int
    rows: List[int]


@dataclass
class Cursor:
    """Where a walk over the windows of an order stands that are shifted round."""

    start: int
    length: int
    variant: int
    longest: int


@dataclass
class EjectionCursor:
    """Where a walk over the windows of an order stands that are ejected; the attempt is the next one, at most the length."""

    start: int
    length: int
    attempt: int
    longest: int


@dataclass(frozen=True)
class Search:
    """What a search comes to: a move, if one was found, and how many asks were made."""

    found: Optional[List[Edit]]
    asks: int


@dataclass(frozen=True)
class Walk:
    """What a walk in one call finds: the moves that had room, and whether none is left."""

    moves: List[List[Edit]]
    done: bool


@dataclass(frozen=True)
class Duty:
    """A row, and the day that it falls on, counted from 1970-01-01."""

    row: int
    day: int


class _EditRecord(ctypes.Structure):
    _fields_ = [("row", ctypes.c_size_t), ("value", ctypes.c_size_t)]


class _CursorRecord(ctypes.Structure):
    _fields_ = [("start", ctypes.c_size_t), ("length", ctypes.c_size_t), ("variant", ctypes.c_size_t), ("longest", ctypes.c_size_t)]


_NUMBER, _BYTE = ctypes.c_size_t, ctypes.c_uint8
_BYTES, _NUMBERS = ctypes.POINTER(_BYTE), ctypes.POINTER(_NUMBER)
_SLICE: List[Any] = [_NUMBERS, _NUMBER]
_TEXT: List[Any] = [_BYTES, _NUMBER]
_TABLES = [_NUMBER, _NUMBER, _BYTE, _BYTES, _NUMBER, _NUMBERS, _NUMBER, ctypes.POINTER(ctypes.c_int64), _NUMBER]
_ENTRY = _TABLES + 2 * _SLICE
_EDITS = [ctypes.POINTER(_EditRecord), _NUMBER]
_CURSOR = 4 * [_NUMBERS]

# every export, with what it takes
_EXPORTS: Dict[str, List[Any]] = {
    "abi": [],
    "tables_refusal": _TABLES,
    "admit": _ENTRY,
    "build_index": _TABLES + 3 * _SLICE,
    "refresh_rows": _ENTRY + 2 * _SLICE,
    "assignment_feasible_after_edits": _ENTRY + 2 * _SLICE + [_BYTES],
    "assignment_feasible_after_edit_records": _EDITS + _ENTRY + [_BYTES],
    "assignment_apply_edits": _ENTRY + 2 * _SLICE + [_BYTES],
    "reinsert_value_allowed": _ENTRY + 2 * _SLICE + [_NUMBER, _NUMBER, _BYTES],
    "roster_sound": _ENTRY + [_BYTES],
    "capacity_conflicts": _ENTRY + 2 * _SLICE + [_NUMBERS],
    "assignment_move_for_entity_value": _ENTRY + 3 * [_NUMBER] + [_BYTE] + 2 * [_NUMBER] + 2 * _SLICE + [_BYTES, _NUMBERS, _NUMBERS],
    "ask_ceiling": [_NUMBER, _NUMBER, _NUMBERS],
    "assigned_entities_by_position": _ENTRY + [_NUMBER] + _SLICE + [_NUMBERS],
    "new_cursor": [_NUMBER, _NUMBER] + _CURSOR,
    "next_augmenting_rematch": _ENTRY + _SLICE + _CURSOR + 2 * _SLICE + [_BYTES, _NUMBERS],
    "walk_augmenting_rematch": _ENTRY + _SLICE + _CURSOR + 3 * _SLICE + [_BYTES, _NUMBERS, _NUMBERS],
    "next_augmenting_rematch_at": [ctypes.POINTER(_CursorRecord)] + _ENTRY + _SLICE + 2 * _SLICE + [_BYTES, _NUMBERS],
    "ejection_reinsert_edits": _ENTRY + _SLICE + [_NUMBER, _NUMBER] + 2 * _SLICE + [_BYTES, _NUMBERS],
    "new_ejection_cursor": [_NUMBER, _NUMBER] + _CURSOR,
    "next_ejection_reinsert": _ENTRY + _SLICE + _CURSOR + [_NUMBER] + 2 * _SLICE + [_BYTES, _NUMBERS],
    "driver_calendar": _ENTRY + [_NUMBER] + 2 * _TEXT + [_NUMBERS],
    "read_calendar": _TEXT + 2 * _SLICE + [_NUMBERS],
}


def _library_path() -> str:
    named = os.environ.get("TUREPAWON_LIBRARY")
    if named:
        return named
    here = Path(__file__).resolve()
    places = [here.with_name("libturepawon.so"), here.parents[2] / "target" / "libturepawon.so"]
    for place in places:
        if place.exists():
            return str(place)
    raise LibraryError(f"no {' and no '.join(map(str, places))}: make it, as this module's help says, or name one by TUREPAWON_LIBRARY")


@functools.lru_cache(maxsize=None)
def library() -> ctypes.CDLL:
    """The shared object, with the exports as they are; seen to have the layout that this module was written for."""
    path = _library_path()
    try:
        loaded = ctypes.CDLL(path)
        for name, takes in _EXPORTS.items():
            export = getattr(loaded, "turepawon_" + name)
            export.argtypes, export.restype = takes, _BYTE
            if name == "abi":
                export.restype = ctypes.c_uint32
                if export() != ABI:
                    raise LibraryError(f"{path} has layout {export()}, and this module is for layout {ABI}: take both from one version")
    except (OSError, AttributeError) as error:
        raise LibraryError(f"{path} is no library of the engine from 0.6.0 on: {error}") from error
    return loaded


def _call(name: str, *given: Any) -> None:
    number = getattr(library(), "turepawon_" + name)(*given)
    if number != 0:
        raise Refused(number)


def abi() -> int:
    """The number of the library's layout."""
    return int(library().turepawon_abi())


def _flag(given: bool) -> int:
    if not isinstance(given, bool):
        raise TypeError(f"a bool is needed, not {given!r}")
    return int(given)


def _number(given: int) -> int:
    if isinstance(given, bool):
        raise TypeError("a number is needed, not a bool")
    number = operator.index(given)
    if not 0 <= number <= EMPTY:
        raise ValueError(f"{number} is no number of 64 bits")
    return number


def _signed(given: int) -> int:
    number = operator.index(given)
    if not -(2**63) <= number < 2**63:
        raise ValueError(f"{number} is no signed number of 64 bits")
    return number


def _value(given: Optional[int]) -> int:
    """A value as the engine takes it; one that would read as empty is far out of range, and stays so."""
    return EMPTY if given is None else min(_number(given), EMPTY - 1)


def _held(number: int) -> Optional[int]:
    return None if number == EMPTY else number


def _slice(numbers: Sequence[int]) -> Tuple[Any, int]:
    return (_NUMBER * len(numbers))(*numbers), len(numbers)


def _text(given: bytes) -> Tuple[Any, int]:
    if not isinstance(given, (bytes, bytearray, memoryview)):
        raise TypeError(f"bytes are needed, not {given!r}")
    octets = bytes(given)
    return (_BYTE * len(octets)).from_buffer_copy(octets), len(octets)


def _pairs(edits: Iterable[Edit]) -> List[Tuple[int, int]]:
    edits = list(edits)
    if not all(isinstance(edit, Edit) for edit in edits):
        raise TypeError(f"edits are needed, not {edits!r}")
    return [(_number(edit.row), _value(edit.value)) for edit in edits]


def _list(edits: Iterable[Edit]) -> Tuple[Any, ...]:
    pairs = _pairs(edits)
    return _slice([row for row, _ in pairs]) + _slice([value for _, value in pairs])


def _order(rows: Iterable[int]) -> Tuple[Any, int]:
    return _slice([_number(row) for row in rows])


def _limit(given: Optional[int]) -> int:
    return ALL if given is None else _number(given)


def _cursor_cells(cursor: Any, kind: Any = Cursor) -> List[Any]:
    """The four numbers of a cursor, which is of one of the two kinds."""
    if not isinstance(cursor, kind):
        raise TypeError(f"{cursor!r} is no {kind.__name__}")
    return [_NUMBER(_number(getattr(cursor, field.name))) for field in fields(kind)]


def _move_on(cursor: Any, cells: List[Any]) -> None:
    for field, cell in zip(fields(cursor), cells):
        setattr(cursor, field.name, cell.value)


def _first_cursor(name: str, kind: Any, count: int, size: int) -> Any:
    cells = [_NUMBER() for _ in range(4)]
    _call(name, _number(count), _number(size), *cells)
    return kind(*(cell.value for cell in cells))


# What knows the layout: the order of the tables here and in Tables, and the two lengths of an index.
def _starts(*tables: Tuple[str, int]) -> Dict[str, int]:
    """Where each table starts, one behind the other; and, under no name, where the last one ends."""
    starts: Dict[str, int] = {}
    at = 0
    for name, length in tables:
        starts[name] = at
        at += length
    starts[""] = at
    return starts


def _index_lengths(rows: int) -> Tuple[int, int]:
    return 5 * rows, 3 * (rows + 1)


class Tables:
    """The tables of a board. At first every flag is no, nothing is given, and no row has candidates."""

    def __init__(self, rows: int, values: int, edge_rule: bool = False) -> None:
        self.rows, self.values, self.edge_rule = _number(rows), _number(values), bool(_flag(edge_rule))
        if self.rows > MOST_ROWS or self.values > MOST_VALUES:
            raise Refused(Refusal.SIZE)
        pairs, cells = self.rows * self.rows, self.rows * self.values
        in_rows = ((name, self.rows) for name in ("required", "may_be_empty", "position_given", "order_given", "candidate_counts"))
        in_cells = ((name, cells) for name in ("legal", "capacity_given", "sequence_given"))
        self._marks_at = _starts(*in_rows, ("candidates", MOST_CANDIDATES * self.rows), *in_cells, ("edges", pairs))
        self._keys_at = _starts(("capacity", cells), ("sequence", cells))
        self._ranks_at = _starts(("position", self.rows), ("order", self.rows))
        self._marks = (_BYTE * self._marks_at[""])()
        self._keys = (_NUMBER * self._keys_at[""])()
        self._ranks = (ctypes.c_int64 * self._ranks_at[""])()

    def _row(self, row: int) -> int:
        if _number(row) >= self.rows:
            raise IndexError(f"there is no row {row}")
        return row

    def _cell(self, row: int, value: int) -> int:
        if _number(value) >= self.values:
            raise IndexError(f"there is no value {value}")
        return self._row(row) * self.values + value

    def set_required(self, row: int, required: bool) -> None:
        """Whether the row has to have a value."""
        self._marks[self._marks_at["required"] + self._row(row)] = _flag(required)

    def set_may_be_empty(self, row: int, may: bool) -> None:
        """Whether the row may be empty."""
        self._marks[self._marks_at["may_be_empty"] + self._row(row)] = _flag(may)

    def set_legal(self, row: int, value: int, legal: bool) -> None:
        """Whether the value is legal for the row."""
        self._marks[self._marks_at["legal"] + self._cell(row, value)] = _flag(legal)

    def set_capacity(self, row: int, value: int, key: Optional[int]) -> None:
        """What the row uses up under the value, of which there is one, or nothing."""
        self._set_key("capacity", self._cell(row, value), key)

    def set_sequence(self, row: int, value: int, sequence: Optional[int]) -> None:
        """Where the row stands in the value's run of rows, or nowhere."""
        self._set_key("sequence", self._cell(row, value), sequence)

    def _set_key(self, table: str, cell: int, key: Optional[int]) -> None:
        self._keys[self._keys_at[table] + cell] = 0 if key is None else _number(key)
        self._marks[self._marks_at[table + "_given"] + cell] = key is not None

    def set_position(self, row: int, position: Optional[int]) -> None:
        """The row's position, or none."""
        self._set_rank("position", self._row(row), position)

    def set_order(self, row: int, order: Optional[int]) -> None:
        """The row's order key, or none."""
        self._set_rank("order", self._row(row), order)

    def _set_rank(self, table: str, row: int, rank: Optional[int]) -> None:
        self._ranks[self._ranks_at[table] + row] = 0 if rank is None else _signed(rank)
        self._marks[self._marks_at[table + "_given"] + row] = rank is not None

    def set_candidates(self, row: int, values: Iterable[int]) -> None:
        """The row's candidates, in the order in which they are tried: at most 64, and values all."""
        cells = [_number(value) for value in values]
        if len(cells) > MOST_CANDIDATES or any(value >= self.values for value in cells):
            raise Refused(Refusal.CANDIDATES)
        start = self._marks_at["candidates"] + MOST_CANDIDATES * self._row(row)
        self._marks[start : start + len(cells)] = cells
        self._marks[self._marks_at["candidate_counts"] + row] = len(cells)

    def set_edge(self, left: int, right: int, allowed: bool) -> None:
        """Whether right may directly follow left under one value."""
        self._marks[self._marks_at["edges"] + self._row(left) * self.rows + self._row(right)] = _flag(allowed)

    def _lent(self) -> Tuple[Any, ...]:
        slices = (self._marks, len(self._marks), self._keys, len(self._keys), self._ranks, len(self._ranks))
        return (self.rows, self.values, _flag(self.edge_rule)) + slices

    def tables_refusal(self) -> None:
        """Raises Refused where the engine does not take the tables."""
        _call("tables_refusal", *self._lent())


class _Outputs:
    """Two outputs of so many cells, and what an export says of them."""

    def __init__(self, room: int) -> None:
        self.rows, self.values = (_NUMBER * room)(), (_NUMBER * room)()
        self.flag, self.count = _BYTE(), _NUMBER()
        self.slices = (self.rows, room, self.values, room)

    def front(self, start: int, count: int) -> List[Edit]:
        return [Edit(self.rows[i], _held(self.values[i])) for i in range(start, start + count)]

    def edits(self) -> Optional[List[Edit]]:
        """The list, if one was given back."""
        return self.front(0, self.count.value) if self.flag.value else None


def _most_edits(count: int) -> int:
    """The most edits that the moves of an order of so many rows have in all: each window is shifted in two ways."""
    count = min(count, MOST_IN_ORDER)
    return sum(2 * length * (count - length + 1) for length in range(3, count + 1))


class Index:
    """Tables and a roster, indexed. Flags of the tables, as what is legal, may change: the next answer goes by them. Where a key of a value that is held changes, this index is refused."""

    def __init__(self, tables: Tables, records: Any, members: Any) -> None:
        """Not for callers: Index.build and Index.from_cells."""
        if not isinstance(tables, Tables):
            raise TypeError(f"Tables are needed, not {tables!r}")
        self.tables, self._records, self._members = tables, records, members

    @classmethod
    def build(cls, tables: Tables, roster: Iterable[Optional[int]]) -> Index:
        """The index of a roster, which has one entry for each row: its value, or None."""
        records, members = _index_lengths(tables.rows if isinstance(tables, Tables) else 0)
        index = cls(tables, (_NUMBER * records)(), (_NUMBER * members)())
        held = _slice([_value(value) for value in roster])
        _call("build_index", *tables._lent(), *held, *index._slices())
        return index

    @classmethod
    def from_cells(cls, tables: Tables, records: Iterable[int], members: Iterable[int]) -> Index:
        """An index from cells that were kept: Refused (6) where they are not what these tables and their own values give."""
        index = cls(tables, _order(records)[0], _order(members)[0])
        index.admit()
        return index

    def _slices(self) -> Tuple[Any, ...]:
        return self._records, len(self._records), self._members, len(self._members)

    def _lent(self) -> Tuple[Any, ...]:
        return self.tables._lent() + self._slices()

    def _verdict(self, name: str, *given: Any) -> bool:
        answer = _BYTE()
        _call(name, *given, answer)
        return answer.value == 1

    def _step(self, name: str, kind: Any, order: Sequence[int], cursor: Any, *bounds: int) -> Optional[List[Edit]]:
        """A step of a cursor of that kind, by its four numbers."""
        out, at = _Outputs(self.tables.rows), _cursor_cells(cursor, kind)
        _call(name, *self._lent(), *_order(order), *at, *bounds, *out.slices, out.flag, out.count)
        _move_on(cursor, at)
        return out.edits()

    def admit(self) -> None:
        """Raises Refused where the engine does not take tables and index."""
        _call("admit", *self._lent())

    def cells(self) -> Tuple[List[int], List[int]]:
        """Records and members, as include/turepawon.h describes them."""
        return list(self._records), list(self._members)

    def roster(self) -> List[Optional[int]]:
        """What each row holds now."""
        return [_held(number) for number in self._records[: self.tables.rows]]

    def refresh_rows(self, edits: Iterable[Edit]) -> None:
        """For loading a roster: gives every listed row its value; asks neither legality nor feasibility. To change a roster that is in use, apply."""
        _call("refresh_rows", *self._lent(), *_list(edits))

    def assignment_feasible_after_edits(self, edits: Iterable[Edit]) -> bool:
        """Whether the edits may be made together; apply asks and makes them."""
        return self._verdict("assignment_feasible_after_edits", *self._lent(), *_list(edits))

    def assignment_feasible_after_edit_records(self, edits: Iterable[Edit]) -> bool:
        """The same, with the edits handed over as records."""
        pairs = _pairs(edits)
        records = (_EditRecord * len(pairs))(*pairs)
        return self._verdict("assignment_feasible_after_edit_records", records, len(pairs), *self._lent())

    def apply(self, edits: Iterable[Edit]) -> bool:
        """Makes the edits, if they may be made together, and says whether they were made; if not, every cell is as it was. A row or a value that does not fit is no refusal: the answer is False."""
        return self._verdict("assignment_apply_edits", *self._lent(), *_list(edits))

    def reinsert_value_allowed(self, edits: Iterable[Edit], row: int, value: int) -> bool:
        """Whether the row may take the value after the edits, in which a required row may be empty."""
        return self._verdict("reinsert_value_allowed", *self._lent(), *_list(edits), _number(row), _number(value))

    def roster_sound(self) -> bool:
        """Whether the roster is sound: no key has two holders, under the edge rule every neighbouring pair is allowed, and every value that is held is legal for its row. An empty row holds nothing illegal."""
        return self._verdict("roster_sound", *self._lent())

    def capacity_conflicts(self) -> List[Conflict]:
        """The keys with two or more holders, in order."""
        out = _Outputs(self.tables.rows)
        conflicts: List[Conflict] = []
        _call("capacity_conflicts", *self._lent(), *out.slices, out.count)
        for key, row in list(zip(out.rows, out.values))[: out.count.value]:
            if not conflicts or conflicts[-1].key != key:
                conflicts.append(Conflict(key, []))
            conflicts[-1].rows.append(row)
        return conflicts

    def assignment_move_for_entity_value(
        self, row: int, value: int, depth: int, displacement: bool = False, limit: Optional[int] = None, budget: Optional[int] = None
    ) -> Search:
        """Looks for a move that gives the row the value. Without a budget a deep search can take days: see ask_ceiling."""
        out, asks = _Outputs(self.tables.rows), _NUMBER()
        given = (_number(row), _value(_number(value)), _number(depth), _flag(displacement))
        bounds = (_limit(limit), NO_BUDGET if budget is None else _number(budget))
        _call("assignment_move_for_entity_value", *self._lent(), *given, *bounds, *out.slices, out.flag, asks, out.count)
        return Search(out.edits(), asks.value)

    def assigned_entities_by_position(self, offset: int = 0) -> List[int]:
        """The rows that hold a value, by position, then order, then row, what has none first; rotated to the left by the offset."""
        rows, count = (_NUMBER * self.tables.rows)(), _NUMBER()
        _call("assigned_entities_by_position", *self._lent(), _number(offset), rows, len(rows), count)
        return rows[: count.value]

    def next_augmenting_rematch(self, order: Sequence[int], cursor: Cursor) -> Optional[List[Edit]]:
        """The next move from the cursor on, which is then right behind it; None at the end."""
        return self._step("next_augmenting_rematch", Cursor, order, cursor)

    def next_augmenting_rematch_at(self, order: Sequence[int], cursor: Cursor) -> Optional[List[Edit]]:
        """The same, with the cursor handed over as a record."""
        out, at = _Outputs(self.tables.rows), _CursorRecord(*(cell.value for cell in _cursor_cells(cursor)))
        _call("next_augmenting_rematch_at", at, *self._lent(), *_order(order), *out.slices, out.flag, out.count)
        cursor.start, cursor.length, cursor.variant, cursor.longest = at.start, at.length, at.variant, at.longest
        return out.edits()

    def walk_augmenting_rematch(self, order: Sequence[int], cursor: Cursor, room: int) -> Walk:
        """The moves from the cursor on in one call, validated once, for as long as their edits have room; the cursor is then right behind the last."""
        room = min(_number(room), max(_most_edits(len(order)), self.tables.rows))
        out, lengths, moves, at = _Outputs(room), (_NUMBER * room)(), _NUMBER(), _cursor_cells(cursor)
        given = (*self._lent(), *_order(order), *at, *out.slices, lengths, room)
        _call("walk_augmenting_rematch", *given, out.flag, moves, out.count)
        _move_on(cursor, at)
        found: List[List[Edit]] = []
        start = 0
        for length in lengths[: moves.value]:
            found.append(out.front(start, length))
            start += length
        return Walk(found, out.flag.value == 1)

    def rematches(self, order: Sequence[int], cursor: Cursor) -> Iterator[List[Edit]]:
        """The moves from the cursor on, one by one. They are found by walks with room for as many edits as there are rows at first, twice as many in each later one, up to 4,096; the cursor that is handed over stays."""
        at, room, done = replace(cursor), self.tables.rows, False
        while not done:
            walk = self.walk_augmenting_rematch(order, at, room)
            yield from walk.moves
            room, done = min(2 * room, 4096), walk.done

    def ejection_reinsert_edits(self, window: Sequence[int], attempt: int = 0, limit: Optional[int] = None) -> Optional[List[Edit]]:
        """Lifts the rows of a window out and puts them back; None where a required row finds no value. The list need not pass the final test."""
        rows = _order(window)
        out = _Outputs(min(rows[1], MOST_IN_ORDER))
        _call("ejection_reinsert_edits", *self._lent(), *rows, _number(attempt), _limit(limit), *out.slices, out.flag, out.count)
        return out.edits()

    def next_ejection_reinsert(self, order: Sequence[int], cursor: EjectionCursor, limit: Optional[int] = None) -> Optional[List[Edit]]:
        """The next move from the cursor on, which is then right behind it; None at the end. A move is what ejection_reinsert_edits lists of a window and an attempt, where that has an edit and passes the final test."""
        return self._step("next_ejection_reinsert", EjectionCursor, order, cursor, _limit(limit))

    def reinsertions(self, order: Sequence[int], cursor: EjectionCursor, limit: Optional[int] = None) -> Iterator[List[Edit]]:
        """The moves from the cursor on, one by one, found by steps; the cursor that is handed over stays."""
        at = replace(cursor)
        yield from iter(lambda: self.next_ejection_reinsert(order, at, limit), None)

    def driver_calendar(self, driver: int, stamp: str) -> bytes:
        """A driver's duties as an iCalendar object: an all-day event for each row that the driver holds and that has a sequence key under them, which is the day, counted from 1970-01-01. The stamp, YYYYMMDDTHHMMSSZ, says when this was written; stamp_of makes one. Refused (17) where it is no UTC date-time, (16) where there is no such row, (11) where a day is after 9999-12-31."""
        if not isinstance(stamp, str):
            raise TypeError(f"a stamp is a str, not {stamp!r}")
        out, written = (_BYTE * CALENDAR_ROOM)(), _NUMBER()
        _call("driver_calendar", *self._lent(), _number(driver), *_text(stamp.encode("utf-8", "replace")), out, len(out), written)
        return bytes(out[: written.value])


def new_cursor(count: int, size: int) -> Cursor:
    """The cursor that a walk over an order of count rows begins with, for windows of at most size rows."""
    return _first_cursor("new_cursor", Cursor, count, size)


def new_ejection_cursor(count: int, size: int) -> EjectionCursor:
    """The same for windows that are ejected: from 2 rows on, each in as many attempts as it has rows."""
    return _first_cursor("new_ejection_cursor", EjectionCursor, count, size)


def ask_ceiling(candidates: int, depth: int) -> int:
    """The most asks that a search can make at the depth, where no row offers more than so many candidates."""
    most = _NUMBER()
    _call("ask_ceiling", _number(candidates), _number(depth), most)
    return most.value


def read_calendar(calendar: bytes) -> List[Duty]:
    """The duties of an object that Index.driver_calendar wrote, folded or not. All other bytes are Refused (13), also where another program reads them."""
    rows, days, count = (_NUMBER * MOST_ROWS)(), (_NUMBER * MOST_ROWS)(), _NUMBER()
    _call("read_calendar", *_text(calendar), rows, len(rows), days, len(days), count)
    return [Duty(rows[i], days[i]) for i in range(count.value)]


def stamp_of(time: datetime.datetime) -> str:
    """The stamp of a time, in UTC, without the fraction of its second. The time has a time zone: else it is a ValueError."""
    if time.utcoffset() is None:
        raise ValueError(f"{time!r} has no time zone")
    utc = time.astimezone(datetime.timezone.utc)
    return f"{utc.year:04}{utc:%m%dT%H%M%SZ}"
