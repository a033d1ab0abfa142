"""The tests of leg_sheet.py: its declarations against the header, its examples, the files of examples/, and the limits. LEG_SHEET_LIBRARY names the shared library."""

import ctypes
import doctest
import importlib.machinery
import importlib.util
import pathlib
import sys
import unittest

sys.dont_write_bytecode = True
import leg_sheet
from leg_sheet import REFUSALS, Refused, blank, cell, column, place, places, print_sheet, read_typed, row

ROOT = pathlib.Path(__file__).resolve().parent.parent
HEADER = (ROOT / "include/leg_sheet.h").read_text()
LOADER = importlib.machinery.SourceFileLoader("abi", str(ROOT / ".ci/abi"))
abi = importlib.util.module_from_spec(importlib.util.spec_from_loader("abi", LOADER))
LOADER.exec_module(abi)

NUMBERS = {"u8": ctypes.c_uint8, "u16": ctypes.c_uint16, "u32": ctypes.c_uint32, "u64": ctypes.c_uint64, "usize": ctypes.c_size_t}


def as_ctypes(parameter):
    if parameter.use == "value":
        return NUMBERS[parameter.item]
    if (parameter.item, parameter.use) == ("u8", "read"):
        return ctypes.c_char_p
    return ctypes.POINTER(NUMBERS[parameter.item])


class Boundary(unittest.TestCase):
    """What the module says of the library is what the header says."""

    def test_functions(self):
        declared = abi.declared(HEADER)
        for name in leg_sheet._FUNCTIONS:
            parameters, answer = declared[name]
            function = getattr(leg_sheet._loaded, name)
            self.assertEqual(list(function.argtypes), [as_ctypes(parameter) for parameter in parameters], name)
            self.assertEqual((function.restype, answer), (ctypes.c_uint64, "u64"), name)

    def test_refusals(self):
        rows = [(number, abi.upper(it.__name__), it.sentence) for number, it in REFUSALS.items()]
        self.assertEqual(rows, abi.refusals_of(HEADER))
        for number, it in REFUSALS.items():
            self.assertTrue(issubclass(it, Refused) and issubclass(it, ValueError))
            self.assertIs(getattr(leg_sheet, it.__name__), it)
            self.assertEqual(it().number, number)

    def test_constants(self):
        constants = abi.constants_of(HEADER)
        for name in ("SHEET", "TREE", "PLACES"):
            self.assertEqual(getattr(leg_sheet, "_" + name), constants["LEG_" + name])
        text = abi.bare(HEADER).split("#define LEG_DEFAULTS ", 1)[1].splitlines()[0]
        literals = "".join(part for at, part in enumerate(text.split('"')) if at % 2)
        self.assertEqual(leg_sheet.DEFAULTS, literals.encode().decode("unicode_escape").encode("latin-1"))


class Examples(unittest.TestCase):
    def test_documentation(self):
        result = doctest.testmod(leg_sheet)
        self.assertEqual(result.failed, 0)
        self.assertGreaterEqual(result.attempted, 18)

    def test_bytes(self):
        """Settings and tree of each file print the sheet beside it."""
        for path in sorted((ROOT / "examples").glob("*.legs")):
            data, text = path.read_bytes(), path.with_suffix(".txt").read_text()
            end = 42 if data[31:32] == b"\x11" else 31
            try:
                self.assertEqual(print_sheet(data[end:], data[:end]) + "\n", text, path.name)
            except Refused as refused:
                self.assertEqual(f"refused {refused.number}\n", text, path.name)

    def test_lists(self):
        """Each typed list is read to the tree of its bytes; the one with a mistake says where it is."""
        for path in sorted((ROOT / "examples").glob("*.list")):
            if path.name == "mistake.list":
                with self.assertRaises(Refused) as refused:
                    read_typed(path.read_text())
                self.assertEqual(str(refused.exception) + "\n", path.with_suffix(".txt").read_text())
                continue
            if not path.with_suffix(".legs").exists():
                continue
            data = path.with_suffix(".legs").read_bytes()
            self.assertEqual(read_typed(path.read_text()), data[42 if data[31:32] == b"\x11" else 31 :], path.name)

    def test_paper(self):
        key, paper = ((ROOT / f"examples/{name}.legs").read_bytes()[42:] for name in ("key", "paper"))
        self.assertEqual(blank(key, [7, 11, 18, 21]), paper)
        self.assertNotIn("54 kt", print_sheet(blank(key)))


class Limits(unittest.TestCase):
    def test_every_place(self):
        """Each place alone and together with others; each byte is that of its cell's text where there is one."""
        tree = column("leg 1", row("Home pad", "take off"))
        sheet = print_sheet(tree).split("\n")
        asked = [(line, column) for line in range(len(sheet)) for column in range(len(sheet[0]))]
        found = places(tree, asked)
        self.assertEqual(found, [place(tree, line, column) for line, column in asked])
        texts = {1: "leg 1", 3: "Home pad", 4: "take off"}
        for (line, column_), it in zip(asked, found):
            if it.line == 1 and 2 <= it.column < 2 + len(texts[it.node]):
                self.assertEqual(sheet[line][column_], texts[it.node][it.column - 2])

    def test_numbers(self):
        for line, column_ in [(-1, 0), (0, -1), (-(1 << 32), 0), (-(1 << 64), 0), (3, 0), (1 << 32, 0), (0, 1 << 64), (1 << 70, 1 << 70)]:
            with self.assertRaises(leg_sheet.OutsideSheet):
                place("ab", line, column_)
            with self.assertRaises(leg_sheet.OutsideSheet):
                places("ab", [(0, 0), (line, column_)])
        self.assertEqual(len(places("ab", [(0, 0)] * 256)), 256)
        self.assertEqual(places("ab", []), [])
        with self.assertRaises(leg_sheet.TooManyPlaces):
            places("ab", [(0, 0)] * 257)
        for node in (-1, 1, 65536, 1 << 70):
            with self.assertRaises(leg_sheet.NoLeaf):
                blank("ab", [node])

    def test_greatest(self):
        self.assertEqual(len(print_sheet("x" * 396 + "\n" * 157)), 64159)
        self.assertEqual(len(read_typed("x" * 32765)), 32768)
        with self.assertRaises(leg_sheet.ListTooLarge):
            read_typed("x" * 32766)
        with self.assertRaises(leg_sheet.ListTooLong):
            read_typed("#" * 131073)
        for text in ("x" * 32766, "x" * 65536):
            with self.assertRaises(leg_sheet.BadTree):
                print_sheet(text)
        with self.assertRaises(leg_sheet.BadTree):
            blank(b"")

    def test_texts(self):
        for text in ("á", "\t", "\0"):
            with self.assertRaises(leg_sheet.BadText):
                print_sheet(cell(text))
        with self.assertRaises(leg_sheet.BadSettings):
            print_sheet("ab", b"")
        with self.assertRaises(leg_sheet.InMargin):
            place("ab", 0, 0, leg_sheet.DEFAULTS + b"\x11\0\x08\1\0\0\0    ")


def main():
    suite = unittest.defaultTestLoader.loadTestsFromModule(sys.modules["__main__"])
    result = unittest.TextTestRunner(verbosity=0).run(suite)
    failed = len(result.failures) + len(result.errors)
    print(f"{result.testsRun - failed} passed, {failed} failed")
    return 0 if failed == 0 else 1


if __name__ == "__main__":
    sys.exit(main())
