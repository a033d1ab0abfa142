"""Leg sheets: bordered tables of nested rows and columns, printed by proved functions.

A tree is typed as plain text, or built of texts; it is kept as bytes.

>>> tree = column("leg 1", row("Home pad", "take off"))
>>> tree == read_typed("column\\n  leg 1\\n  row\\n    Home pad\\n    take off\\n")
True
>>> print(print_sheet(tree))
+---------------------+
| leg 1               |
+----------+----------+
| Home pad | take off |
+----------+----------+

Each place of the sheet leads to the cell that it belongs to. Lines and columns count from 0, and so do nodes: a parent before its children, these from left to right.

>>> place(tree, 3, 14)
Place(node=4, line=1, column=3)

What is refused is an exception of its own, and each is a `Refused`:

>>> print_sheet(cell("x" * 400))
Traceback (most recent call last):
leg_sheet.TooLarge: refused 6: the sheet has over 400 columns or over 160 lines
>>> try:
...     read_typed("row\\n   Home pad\\n")
... except Refused as refused:
...     print(refused.number, refused.line, refused.column, refused)
33 2 4 line 2, column 4: a level is two spaces, and this line begins with an odd number of them

Settings are bytes, too, 31 of them or 42 with a margin: `DEFAULTS`, a `.settings` file, or the first bytes of a `.legs` file.

The functions are those of the shared library libleg_sheet.so.1, which `./install` puts under lib/; LEG_SHEET_LIBRARY names another file.
"""

import ctypes
import os
import pathlib
from typing import Iterable, List, NamedTuple, Tuple, Union

Tree = Union[bytes, str]

DEFAULTS = b"\x10\x00\x1C--||-|+++++++++\x01\x01\x00\x00    \x00\x00\x00\x01\x02"

_SHEET = 401 * 160 - 1
_TREE = 32768
_PLACES = 256


class Refused(ValueError):
    """What a function refused: its number and its sentence; of a typed list also the line and the column, which count from 1, or 0 and 0 where there is no place."""

    number = 0
    sentence = ""

    def __init__(self, line: int = 0, column: int = 0):
        self.line, self.column = line, column
        if line:
            super().__init__(f"line {line}, column {column}: {self.sentence}")
        else:
            super().__init__(f"refused {self.number}: {self.sentence}")


# Number, name and sentence of each refusal, as leg_sheet.h has them.
_REFUSALS = """
1 BadSettings the settings are malformed or out of range
2 BadTree the tree is too long, is cut short, or has an unknown tag, a length past the end or bytes after its end
3 BadText a text has a byte other than hex 20 to 7E and 0A
4 TooManyNodes the tree has more than 512 nodes
5 TooDeep the tree is more than 16 deep
6 TooLarge the sheet has over 400 columns or over 160 lines
8 TooShort a lent list or output is shorter than needed
9 NoLeaf the number names no leaf or, where texts are blanked, no Cell
10 TooManyPieces the split list has over 512 pieces
11 NoChild there are no children to share among, or the index is past them
12 OutsideSheet the line or column is outside the printed sheet
13 InMargin the place is in the sheet's margin
14 TooManyPlaces there are over 256 places
15 NotAList the tree is no Column of 1 to 200 Cells
16 TooWide a cell is wider than the given width
17 BadRange a range has a least above its greatest, or a least line count of 0
18 BadStore the store of drafts is malformed
19 NoDraft the name is none of A to H, or no draft has it
20 NoRoom the store has no room for the tree beside the other drafts
30 ListTooLong the list has over 131,072 bytes
31 BadCharacter only ASCII letters, digits, signs and spaces are allowed here: no tab, no accent
32 BadEscape only n or a backslash is allowed after a backslash
33 OddIndent a level is two spaces, and this line begins with an odd number of them
34 SecondRoot a second root: indent every line after the first
35 NoParent too deep: only a row or column has lines inside it, and these are one level deeper
36 ListTooDeep over 16 levels
37 ListTooMany over 512 rows, columns and texts
38 ListTooLarge the list is too long: with this line its tree has over 32,768 bytes
39 ListEmpty the list is empty: no line has a row, a column or a text
"""

REFUSALS = {}
for _number, _name, _sentence in (line.split(" ", 2) for line in _REFUSALS.strip().splitlines()):
    REFUSALS[int(_number)] = globals()[_name] = type(_name, (Refused,), {"number": int(_number), "sentence": _sentence, "__doc__": _sentence, "__module__": __name__})


class Place(NamedTuple):
    """A leaf, and a line and a column of its block."""

    node: int
    line: int
    column: int


def _library() -> ctypes.CDLL:
    """The shared library: as the environment names it; under the prefix that this file is installed in; or where the system finds it."""
    name = "libleg_sheet.so.1"
    installed = pathlib.Path(__file__).resolve().parent / "../../../lib" / name
    return ctypes.CDLL(os.environ.get("LEG_SHEET_LIBRARY") or (str(installed) if installed.is_file() else name))


_BYTES, _SIZE = [ctypes.c_char_p, ctypes.c_size_t], ctypes.c_size_t
_U8, _U16, _U32, _U64 = (ctypes.POINTER(number) for number in (ctypes.c_uint8, ctypes.c_uint16, ctypes.c_uint32, ctypes.c_uint64))

# The parameters of each function, as leg_sheet.h has them.
_FUNCTIONS = {
    "leg_print_sheet": [*_BYTES, *_BYTES, _U8, _SIZE],
    "leg_place": [*_BYTES, *_BYTES, _SIZE, _SIZE, _U16, _SIZE],
    "leg_places": [*_BYTES, *_BYTES, _U64, _SIZE, _U64, _SIZE, _U64],
    "leg_blank": [*_BYTES, _U16, _SIZE, _U8, _SIZE],
    "leg_read_typed": [*_BYTES, _U8, _SIZE],
}
_loaded = _library()
for _name, _parameters in _FUNCTIONS.items():
    _function = getattr(_loaded, _name)
    _function.argtypes, _function.restype = _parameters, ctypes.c_uint64


def _count(word: int) -> int:
    """What a function counts; what it refuses is raised, a typed list's fault with its line and column, which are in the word."""
    line, number, lower = word >> 40, word >> 32 & 0xFF, word & 0xFFFFFFFF
    if number == 0:
        return lower
    if number in REFUSALS:
        raise REFUSALS[number](line, lower)
    raise Refused(line, lower)


def _within(number: int, bits: int) -> int:
    """A line or column, or the greatest of this many bits: a greater one is outside every sheet, and so is one below 0."""
    return min(number, (1 << bits) - 1) if number >= 0 else (1 << bits) - 1


def _element(tag: int, contents: bytes) -> bytes:
    if len(contents) > 0xFFFF:
        raise REFUSALS[2]()
    return bytes([tag]) + len(contents).to_bytes(2, "big") + contents


def cell(text: str) -> bytes:
    """The tree of one text. Line feeds separate its lines.

    >>> cell("ab")
    b'\\x01\\x00\\x02ab'
    """
    return _element(1, text.encode())


def _tree(tree: Tree) -> bytes:
    return cell(tree) if isinstance(tree, str) else bytes(tree)


def row(*children: Tree) -> bytes:
    """The tree of children side by side. A text is a cell.

    >>> row("a", cell("b")) == row("a", "b")
    True
    """
    return _element(2, b"".join(map(_tree, children)))


def column(*children: Tree) -> bytes:
    """The tree of children one below the other."""
    return _element(3, b"".join(map(_tree, children)))


def read_typed(text: Union[str, bytes]) -> bytes:
    """The tree of a typed list.

    >>> read_typed(b"row\\r\\n  a\\r\\n  '") == row("a", "")
    True
    >>> read_typed("")
    Traceback (most recent call last):
    leg_sheet.ListEmpty: line 1, column 1: the list is empty: no line has a row, a column or a text
    """
    text = text.encode() if isinstance(text, str) else bytes(text)
    out = (ctypes.c_uint8 * _TREE)()
    word = _loaded.leg_read_typed(text, len(text), out, len(out))
    return ctypes.string_at(out, _count(word))


def print_sheet(tree: Tree, settings: bytes = DEFAULTS) -> str:
    """The sheet: its lines with a line feed between them, none at the end.

    >>> print_sheet("ab")
    '+----+\\n| ab |\\n+----+'
    >>> print_sheet(b"")
    Traceback (most recent call last):
    leg_sheet.BadTree: refused 2: the tree is too long, is cut short, or has an unknown tag, a length past the end or bytes after its end
    """
    tree, out = _tree(tree), (ctypes.c_uint8 * _SHEET)()
    word = _loaded.leg_print_sheet(settings, len(settings), tree, len(tree), out, len(out))
    return ctypes.string_at(out, _count(word)).decode("ascii")


def place(tree: Tree, line: int, column: int, settings: bytes = DEFAULTS) -> Place:
    """The leaf that a place of the sheet belongs to, and where in its block.

    >>> place("ab", 1, 2)
    Place(node=0, line=1, column=2)
    >>> place("ab", 3, 0)
    Traceback (most recent call last):
    leg_sheet.OutsideSheet: refused 12: the line or column is outside the printed sheet
    """
    tree, out = _tree(tree), (ctypes.c_uint16 * 3)()
    _count(_loaded.leg_place(settings, len(settings), tree, len(tree), _within(line, 64), _within(column, 64), out, len(out)))
    return Place(*out)


def places(tree: Tree, asked: Iterable[Tuple[int, int]], settings: bytes = DEFAULTS) -> List[Place]:
    """The same for up to 256 places, each a line and a column, in one walk over the tree.

    >>> places(row("1", "Home pad"), [(1, 6), (1, 2), (1, 6)])
    [Place(node=2, line=1, column=2), Place(node=1, line=1, column=2), Place(node=2, line=1, column=2)]
    """
    numbers = [_within(line, 32) << 32 | _within(column, 32) for line, column in asked]
    tree, elements = _tree(tree), ctypes.c_uint64()
    lent, out = (ctypes.c_uint64 * max(len(numbers), 1))(*numbers), (ctypes.c_uint64 * _PLACES)()
    count = _count(_loaded.leg_places(settings, len(settings), tree, len(tree), lent, len(numbers), out, len(out), ctypes.byref(elements)))
    return [Place(word >> 32, word >> 16 & 0xFFFF, word & 0xFFFF) for word in out[:count]]


def blank(tree: Tree, nodes: Iterable[int] = ()) -> bytes:
    """The question paper of a key: the tree with the texts of these cells, by their nodes, as dots; of every cell where none is named.

    >>> key = column("Q1: Vy?", row("54 kt", "6 s"))
    >>> blank(key, [3, 4]) == column("Q1: Vy?", row(".....", "..."))
    True
    >>> blank(key, [2])
    Traceback (most recent call last):
    leg_sheet.NoLeaf: refused 9: the number names no leaf or, where texts are blanked, no Cell
    """
    numbers = [node if 0 <= node <= 0xFFFF else 0xFFFF for node in nodes]
    tree = _tree(tree)
    lent, out = (ctypes.c_uint16 * max(len(numbers), 1))(*numbers), (ctypes.c_uint8 * max(len(tree), 1))()
    count = _count(_loaded.leg_blank(tree, len(tree), lent, len(numbers), out, len(tree)))
    return ctypes.string_at(out, count)
