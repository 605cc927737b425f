"""Lines of PDB files, read with what could not be read of them, and written.

    read(line)          a line as a Record: its kind, its fields by name, its faults; or a Refusal is raised
    lines(data)         the lines of a file's bytes one after another, each read
    write(item)         a record as the 80 bytes of a line; or a Refusal is raised

A value that isn't the line's but was put there is named in its item's `unread`:

    >>> zinc = read(b"HETATM   18 ZN    ZN A 101      1", 30).item
    >>> zinc.x, "x" in zinc.unread
    (0.0, True)

It stands on the library libsaltighedda.so, whose answers are proved; what this module does with them is tested, and not proved. The
library is the one that the environment's SALTIGHEDDA_LIBRARY names, or the loader's, or that of ~/.local/lib or /usr/local/lib.
"""

from __future__ import annotations

import ctypes
import os
import re
import struct
from dataclasses import dataclass, fields
from pathlib import Path
from typing import Iterator, Optional, Union

__all__ = [
    "read", "lines", "write", "kind", "Record", "Line", "Fault", "Refusal", "Atom", "Anisou", "Cell", "Row", "Model", "Bare", "Header",
    "Remark", "Master", "Seqres", "Dbref", "Dbref1", "Dbref2", "Seqadv", "Modres", "Ssbond", "KINDS", "field_name",
]

# ---- What things are called: the tables that the C header and the other hosts share. ----


def _tables() -> str:
    """The text of saltighedda_fields.h, which an installation has beside this module and a clone in include/."""
    here = Path(__file__).resolve().parent
    beside = here / "saltighedda_fields.h"
    return (beside if beside.exists() else here.parent.parent / "include" / beside.name).read_text("ascii")


_TEXT = _tables()
_KIND_ROWS = [(int(n), name, group) for n, name, group in re.findall(r"^ +K\((\d+), (\w+), (\w+)\)", _TEXT, re.M)]
_LISTS = {
    name: [(sort, member, int(first), int(end), words) for sort, member, first, end, words in
           re.findall(r'^ +F\((\w), (\w+), (\d+), (\d+), "([^"]*)"\)', rows, re.M)]
    for name, rows in re.findall(r"^#define SALTIGHEDDA_(\w+)_FIELDS\(F\)((?:.*\\\n)*.*)", _TEXT, re.M)
}


def _words(table: str) -> dict:
    rows = re.search(rf"^#define SALTIGHEDDA_{table}_TABLE\(N\)((?:.*\\\n)*.*)", _TEXT, re.M).group(1)
    return {int(n): words for n, words in re.findall(r'N\((\d+), "([^"]*)"\)', rows)}


_FAULTS = _words("FAULT")
_REFUSALS = _words("REFUSAL")

#: The names of the kinds of lines, by their numbers.
KINDS = tuple(name for _, name, _ in _KIND_ROWS)
_LIST_OF = {name: group for _, name, group in _KIND_ROWS}


def field_name(kind: str, column: int) -> str:
    """The field of a kind that a column belongs to, from 0, as crystallographers call it; "something" for columns of no field."""
    for _, _, first, end, words in _LISTS[_LIST_OF[kind]]:
        if first <= column < end:
            return words
    return "something"


# ---- The library. ----


def _library() -> ctypes.CDLL:
    name = "libsaltighedda.so.0"
    named = os.environ.get("SALTIGHEDDA_LIBRARY")
    tried = [named] if named else [name, str(Path.home() / ".local" / "lib" / name), f"/usr/local/lib/{name}"]
    for path in tried[:-1]:
        try:
            return ctypes.CDLL(path)
        except OSError:
            pass
    return ctypes.CDLL(tried[-1])


_FIELDS, _FAULT_WORDS, _LINE, _ANY = 34, 31, 80, 2**32 - 1
_EVERY_REMARK = bytes([1]) * 1000
_U32, _U64, _I64, _SIZE, _REAL = ctypes.c_uint32, ctypes.c_uint64, ctypes.c_int64, ctypes.c_size_t, ctypes.c_double
_TEXT_IN = [ctypes.c_char_p, _SIZE]
_OUT = [ctypes.c_void_p, _SIZE]
_ENTRIES = {
    "kind": _TEXT_IN + [_U32],
    "read": _TEXT_IN + [_SIZE, _U32] + _TEXT_IN + [_U32] + _OUT + _OUT,
    "write_atom": [_U32, _U64] + 4 * _TEXT_IN + [_I64] + _TEXT_IN + 5 * [_REAL] + 2 * _TEXT_IN + [_I64] + _TEXT_IN + _OUT,
    "write_anisou": [_U64] + 4 * _TEXT_IN + [_I64] + _TEXT_IN + 6 * [_REAL] + 2 * _TEXT_IN + [_I64] + _OUT,
    "write_cell": 6 * [_REAL] + _TEXT_IN + [_U64] + _TEXT_IN + _OUT,
    "write_row": [_U32, _U64, _U64] + 4 * [_REAL] + [_U32] + _TEXT_IN + _OUT,
    "write_model": [_U64] + _OUT,
    "write_bare": [_U32] + _OUT,
}


def _entry(name: str):
    entry = getattr(_LIB, f"saltighedda_{name}")
    entry.argtypes, entry.restype = _ENTRIES[name], _U64
    return entry


_LIB = _library()
_C = {name: _entry(name) for name in _ENTRIES}


class Refusal(Exception):
    """Why a line was not read, or a record not written: its number, the first column from 0, and how many columns it is about."""

    def __init__(self, number: int, place: int, length: int):
        self.number, self.place, self.length = number, place, length
        super().__init__(f"{_REFUSALS.get(number, 'no such refusal')}, at column {place + 1}, {length} columns")

    @classmethod
    def _of(cls, packed: int) -> Refusal:
        return cls(packed >> 48, packed >> 32 & 0xFFFF, packed & 0xFFFFFFFF)

    def __eq__(self, other):
        return isinstance(other, Refusal) and (self.number, self.place, self.length) == (other.number, other.place, other.length)

    __hash__ = Exception.__hash__


# ---- The records. Members have the names and columns of the tables; `unread` names those that were put there. ----


@dataclass
class Atom:
    """ATOM, or HETATM if `hetero`. `name` is its four columns as they stand: " CA " is carbon and "CA  " calcium."""

    hetero: bool = False
    serial: int = 0
    name: str = "    "
    alternate: Optional[str] = None
    residue: str = ""
    chain: str = " "
    number: int = 0
    insertion: Optional[str] = None
    x: float = 0.0
    y: float = 0.0
    z: float = 0.0
    occupancy: float = 1.0
    bfactor: float = 0.0
    segment: str = ""
    element: str = ""
    charge: int = 0
    unread: frozenset = frozenset()

    @property
    def trimmed_name(self) -> str:
        """The name without its blanks."""
        return self.name.strip("\t\n\v\f\r ")


@dataclass
class Anisou:
    """ANISOU. `name` is its four columns as they stand."""

    serial: int = 0
    name: str = "    "
    alternate: Optional[str] = None
    residue: str = ""
    chain: str = " "
    number: int = 0
    insertion: Optional[str] = None
    u11: float = 0.0
    u22: float = 0.0
    u33: float = 0.0
    u12: float = 0.0
    u13: float = 0.0
    u23: float = 0.0
    segment: str = ""
    element: str = ""
    charge: int = 0
    unread: frozenset = frozenset()

    trimmed_name = Atom.trimmed_name


@dataclass
class Cell:
    """CRYST1. Z is 1 in a line of 66 bytes or less."""

    a: float = 0.0
    b: float = 0.0
    c: float = 0.0
    alpha: float = 0.0
    beta: float = 0.0
    gamma: float = 0.0
    group: str = ""
    z: int = 1
    unread: frozenset = frozenset()


@dataclass
class Row:
    """A row of `family` SCALE, ORIGX or MTRIX; `row` is 0 to 2 for the names that end in 1 to 3. The last two are MTRIX's alone."""

    family: str = "SCALE"
    row: int = 0
    a: float = 0.0
    b: float = 0.0
    c: float = 0.0
    d: float = 0.0
    serial: int = 0
    given: bool = False
    unread: frozenset = frozenset()


@dataclass
class Model:
    """MODEL."""

    number: int = 0
    unread: frozenset = frozenset()


@dataclass
class Bare:
    """TER, ENDMDL or END, of which nothing is read."""

    kind: str = "END"


@dataclass
class Header:
    """HEADER, its texts blanks and all."""

    classification: str = ""
    date: str = ""
    code: str = ""
    unread: frozenset = frozenset()


@dataclass
class Remark:
    """REMARK."""

    number: int = 0
    text: str = ""
    unread: frozenset = frozenset()


@dataclass
class Master:
    """MASTER."""

    remark: int = 0
    empty: int = 0
    het: int = 0
    helix: int = 0
    sheet: int = 0
    turn: int = 0
    site: int = 0
    xform: int = 0
    coord: int = 0
    ter: int = 0
    connect: int = 0
    seq: int = 0
    unread: frozenset = frozenset()


@dataclass
class Seqres:
    """SEQRES. `residues` is how many the chain has, `triples` those of the line."""

    serial: int = 0
    chain: str = " "
    residues: int = 0
    triples: tuple = ()
    unread: frozenset = frozenset()


@dataclass
class Dbref:
    """DBREF."""

    code: str = ""
    chain: str = ""
    begin: int = 0
    opening: str = " "
    end: int = 0
    closing: str = " "
    database: str = ""
    accession: str = ""
    name: str = ""
    target_begin: int = 0
    target_opening: str = " "
    target_end: int = 0
    target_closing: str = " "
    unread: frozenset = frozenset()


@dataclass
class Dbref1:
    """DBREF1."""

    code: str = ""
    chain: str = ""
    begin: int = 0
    opening: str = " "
    end: int = 0
    closing: str = " "
    database: str = ""
    name: str = ""
    unread: frozenset = frozenset()


@dataclass
class Dbref2:
    """DBREF2."""

    code: str = ""
    chain: str = ""
    accession: str = ""
    target_begin: int = 0
    target_end: int = 0
    unread: frozenset = frozenset()


@dataclass
class Seqadv:
    """SEQADV. The target is None where its columns are all blanks."""

    code: str = ""
    residue: str = ""
    chain: str = ""
    number: int = 0
    insertion: Optional[str] = None
    database: str = ""
    accession: str = ""
    target_name: Optional[str] = None
    target_number: Optional[int] = None
    comment: str = ""
    unread: frozenset = frozenset()


@dataclass
class Modres:
    """MODRES."""

    code: str = ""
    residue: str = ""
    chain: str = " "
    number: int = 0
    insertion: Optional[str] = None
    standard: str = ""
    comment: str = ""
    unread: frozenset = frozenset()


@dataclass
class Ssbond:
    """SSBOND. Operators and length are None in a line of under 78 bytes."""

    residue: str = ""
    chain: str = " "
    number: int = 0
    insertion: Optional[str] = None
    other_residue: str = ""
    other_chain: str = " "
    other_number: int = 0
    other_insertion: Optional[str] = None
    symmetry: Optional[str] = None
    other_symmetry: Optional[str] = None
    length: Optional[float] = None
    unread: frozenset = frozenset()


Item = Union[Atom, Anisou, Cell, Row, Model, Bare, Header, Remark, Master, Seqres, Dbref, Dbref1, Dbref2, Seqadv, Modres, Ssbond, None]

_CLASSES = {
    "HEADER": Header, "REMARK": Remark, "ATOM": Atom, "ANISOU": Anisou, "CELL": Cell, "ROW": Row, "MTRIX": Row, "MODEL": Model,
    "MASTER": Master, "SEQRES": Seqres, "DBREF": Dbref, "DBREF1": Dbref1, "DBREF2": Dbref2, "SEQADV": Seqadv, "MODRES": Modres,
    "SSBOND": Ssbond,
}

for _list, _class in _CLASSES.items():
    _unknown = {member for _, member, *_ in _LISTS[_list]} - {field.name for field in fields(_class)}
    if _unknown:
        raise ImportError(f"saltighedda: the table of {_list} has members that {_class.__name__} lacks: {sorted(_unknown)}")


@dataclass(frozen=True)
class Fault:
    """What could not be read of a line. It knows the line's number and kind; `str` tells it in words, columns counted from 1."""

    line: int
    kind: str
    fault: int
    sort: Optional[str]
    place: int
    length: int

    @property
    def field_name(self) -> str:
        """The name of the field, as crystallographers call it."""
        return field_name(self.kind, self.place)

    @property
    def is_unread(self) -> bool:
        """Whether the field has a value that was put there: of a fault 5 it was read."""
        return self.fault < 5

    def __str__(self) -> str:
        return (f"line {self.line}, {self.kind}, columns {self.place + 1} to {self.place + self.length}: "
                f"{self.field_name}: {_FAULTS[self.fault]}")


@dataclass(frozen=True)
class Record:
    """A line that was read: its kind, its fields by name, what could not be read, and the decimals that each real was written with."""

    kind: str
    item: Item
    faults: tuple
    places: bytes


@dataclass(frozen=True)
class Line:
    """A line of a file: its number from 1, its bytes without the line end, and its record, or why there is none."""

    number: int
    bytes: bytes
    record: Optional[Record]
    refusal: Optional[Refusal]

    @property
    def faults(self) -> tuple:
        """The record's faults; none if the line was refused."""
        return self.record.faults if self.record else ()


# ---- Reading. ----

_SORTS = (None, "unsigned", "signed", "real")


def _value(sort: int, word: int, line: bytes):
    if sort == 1:
        return word - 2**64 if word >> 63 else word
    if sort == 2:
        return struct.unpack("<d", struct.pack("<Q", word))[0]
    if sort == 3:
        return line[word >> 32 : (word >> 32) + (word & 0xFFFFFFFF)].decode("ascii")
    if sort == 4:
        return chr(word) if word < 256 else " "
    return bool(word) if sort == 5 else word


def _fault(line: int, word: int) -> Fault:
    return Fault(line, KINDS[word & 0xFF], word >> 8 & 0xFF, _SORTS[word >> 16 & 0xFFFF], word >> 32 & 0xFFFF, word >> 48)


def _item(kind: str, line: bytes, found: list, faults: tuple) -> Item:
    group = _LIST_OF[kind]
    if group == "NO":
        return None if kind == "EMPTY" else Bare(kind)
    item = _CLASSES[group]()
    unread = set()
    for sort, member, first, end, _ in _LISTS[group]:
        held = [value for column, _, _, value in found if first <= column < end]
        setattr(item, member, tuple(held) if sort == "L" else held[0] if held else None)
        if any(fault.is_unread and first <= fault.place < end for fault in faults):
            unread.add(member)
    item.unread = frozenset(unread)
    if isinstance(item, (Atom, Anisou)) and "name" not in unread:
        item.name = line[12:16].decode("ascii")
    if isinstance(item, Atom):
        item.hetero = kind == "HETATM"
    if isinstance(item, Row):
        item.family, item.row = kind[:5], int(kind[5]) - 1
    return item


def _options(atoms_only: bool, loose: bool, wwpdb: bool, exponents: bool = False) -> int:
    return bool(atoms_only) | bool(loose) << 1 | bool(wwpdb) << 2 | bool(exponents) << 3


def read(line: bytes, number: int = 1, *, atoms_only: bool = False, loose: bool = False, wwpdb: bool = False, exponents: bool = False,
         remarks: bytes = _EVERY_REMARK) -> Record:
    """Reads a line, without its line end. `number` is the line's, and goes into its faults. Raises a Refusal if it can't be read.

    `atoms_only` makes every kind but ATOM, HETATM, MODEL, ENDMDL, TER and END EMPTY; `loose` lets remarks of 80 bytes and more pass;
    `wwpdb` reads MODEL, DBREF1 and a bare ENDMDL as wwPDB 3.30 prints them; with `exponents` a real may be `1.2E2`. `remarks` has 1,000
    bytes, of which byte n is nonzero if remark number n is valid; all are if it isn't given.
    """
    words, notes = (_U64 * _FIELDS)(), (_U64 * _FAULT_WORDS)()
    refusal = _C["read"](line, len(line), number, _options(atoms_only, loose, wwpdb, exponents), remarks, len(remarks), _ANY, words, _FIELDS,
                         notes, _FAULT_WORDS)
    if refusal:
        raise Refusal._of(refusal)
    kind = KINDS[words[0]]
    found = []
    for n in range(words[1]):
        head, word = words[2 + 2 * n], words[3 + 2 * n]
        sort = head >> 16 & 0xFF
        found.append((head & 0xFFFF, sort, head >> 24 & 0xFF, _value(sort, word, line)))
    faults = tuple(_fault(notes[1 + 2 * n], notes[2 + 2 * n]) for n in range(notes[0]))
    places = bytes(places for _, sort, places, _ in found if sort == 2 and kind != "ANISOU")
    return Record(kind, _item(kind, line, found, faults), faults, places)


def kind(line: bytes, *, atoms_only: bool = False, wwpdb: bool = False) -> str:
    """Which kind a line is, without reading it. Raises a Refusal if it is too long or has a byte of 128 or more."""
    number = _C["kind"](line, len(line), _options(atoms_only, False, wwpdb))
    if number >= len(KINDS):
        raise Refusal._of(number)
    return KINDS[number]


def lines(data: bytes, **options) -> Iterator[Line]:
    """The lines of a file's bytes, each read with the options of `read`. A line ends at LF, a CR just before LF is dropped, and an
    empty last piece is no line."""
    pieces = data.split(b"\n")
    last = pieces.pop()
    whole = [piece[:-1] if piece.endswith(b"\r") else piece for piece in pieces] + ([last] if last else [])
    for number, line in enumerate(whole, 1):
        try:
            yield Line(number, line, read(line, number, **options), None)
        except Refusal as refusal:
            yield Line(number, line, None, refusal)


# ---- Writing. ----


def _lent(*texts) -> list:
    """Texts as pairs of bytes and length; None is no text. What isn't ASCII has bytes that the library refuses."""
    encoded = [(text or "").encode("utf-8", "surrogatepass") for text in texts]
    return [part for text in encoded for part in (text, len(text))]


def _unsigned(value: int) -> int:
    """A number that 64 bits don't hold fits no columns either, so the largest stands for it."""
    return value if 0 <= value < 2**64 else 2**64 - 1


def _signed(value: int) -> int:
    return max(-(2**63), min(2**63 - 1, value))


def write(item: Item, places: bytes = b"") -> bytes:
    """A record as a line of 80 bytes, in the columns of wwPDB 3.30. Raises a Refusal if a field doesn't fit.

    `places` has the number of decimals of each real by ascending column, as a Record's `places` has them; for reals that it lacks the
    format's serve. A record of a family that isn't written is refused as 9 (0, 6), another kind.
    """
    out = ctypes.create_string_buffer(_LINE)
    room, own = (out, _LINE), (bytes(places), len(places))
    if isinstance(item, Atom):
        refusal = _C["write_atom"](
            bool(item.hetero), _unsigned(item.serial), *_lent(item.name, item.alternate, item.residue, item.chain),
            _signed(item.number), *_lent(item.insertion), item.x, item.y, item.z, item.occupancy, item.bfactor,
            *_lent(item.segment, item.element), _signed(item.charge), *own, *room)
    elif isinstance(item, Anisou):
        refusal = _C["write_anisou"](
            _unsigned(item.serial), *_lent(item.name, item.alternate, item.residue, item.chain), _signed(item.number),
            *_lent(item.insertion), item.u11, item.u22, item.u33, item.u12, item.u13, item.u23, *_lent(item.segment, item.element),
            _signed(item.charge), *room)
    elif isinstance(item, Cell):
        refusal = _C["write_cell"](item.a, item.b, item.c, item.alpha, item.beta, item.gamma, *_lent(item.group), _unsigned(item.z),
                                   *own, *room)
    elif isinstance(item, Row):
        families = ("SCALE", "ORIGX", "MTRIX")
        family = families.index(item.family) if item.family in families else len(families)
        refusal = _C["write_row"](family, _unsigned(item.row), _unsigned(item.serial), item.a, item.b, item.c, item.d,
                                  bool(item.given), *own, *room)
    elif isinstance(item, Model):
        refusal = _C["write_model"](_unsigned(item.number), *room)
    else:
        bare = ("TER", "ENDMDL", "END")
        refusal = _C["write_bare"](bare.index(item.kind) if isinstance(item, Bare) and item.kind in bare else len(bare), *room)
    if refusal:
        raise Refusal._of(refusal)
    return out.raw
