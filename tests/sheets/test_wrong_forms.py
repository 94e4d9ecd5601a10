"""Each way in which a text form can be wrong: where it is said to be, what is said, what would be right."""

import random

from desk import ROOT, DeskTest

from sheetdesk import form
from sheetdesk.words import Wrong

ALIGNMENTS = "none, left, right, centre"
ONE_CHARACTER = 'exactly one character in quotes, such as "/", or none'
WIDTHS = "Absolute, LowerBoundary and UpperBoundary use one width, Boundaries two, the others none"
ESCAPES = r'in a text \" \\ \0 and \xHH (two hexadecimal digits) stand for one byte each'
COLUMN = "column [padding LEFT RIGHT] [delimiter D] [alignment A] [constraint C [WIDTH [WIDTH]]], in this order"
CELL = 'cell [delimiter D] [alignment A] "line" .., in this order'
ORDER = "the order is: edition, arrangement, target, delimiter, indicator, style, top, "
BEYOND = "at most {}; a count or length is a byte, so that over 255 can't be written at all"
ASCII = "a text form is ASCII and the degree sign, as UTF-8 writes it (C2 B0), comments too"
CELLS_ONLY = "the degree sign stands in the texts of cells only"
RAW = "raw, alone and first; then only bytes, pad and cut"

# The form, the place, the message, and the start of what is right.
WRONG = [
    # Names of codes and styles.
    ("column alignment center", (1, 18), "alignment: center isn't known", ALIGNMENTS),
    ('row\n  cell alignment middle "a"', (2, 18), "alignment: middle isn't known", ALIGNMENTS),
    ("column alignment 256", (1, 18), "alignment: 256 is above 255, which no sheet can hold", ALIGNMENTS),
    ("arrangement dynamic", (1, 13), "arrangement: dynamic isn't known", "Disabled, Dynamic, DynamicFullWidth"),
    ("column constraint Fixed 3", (1, 19), "constraint: Fixed isn't known", "none, Hidden, ContentWidth, Absolute, "),
    ("style House", (1, 7), "style: House isn't known", "house, bare, ASCII_FULL, ASCII_FULL_CONDENSED, "),
    # Characters.
    ('delimiter ", "', (1, 11), 'delimiter: ", " has 2 characters', ONE_CHARACTER),
    ('delimiter ""', (1, 11), 'delimiter: "" has 0 characters', ONE_CHARACTER),
    ('column delimiter "ab"', (1, 18), 'delimiter: "ab" has 2 characters', ONE_CHARACTER),
    ('row\n  cell delimiter "ab" "c"', (2, 18), 'delimiter: "ab" has 2 characters', ONE_CHARACTER),
    ('top "+-+"', (1, 5), 'top: "+-+" has 3 characters', "top unset, or top with 4 characters in quotes: left, fill, "),
    ('header-lines "||"', (1, 14), 'header-lines: "||" has 2 characters', "header-lines unset, or header-lines with 3"),
    # Widths.
    ("column constraint Absolute", (1, 27), "Absolute wants 1 width, not 0", WIDTHS),
    ("column constraint LowerBoundary", (1, 32), "LowerBoundary wants 1 width, not 0", WIDTHS),
    ("column constraint UpperBoundary", (1, 32), "UpperBoundary wants 1 width, not 0", WIDTHS),
    ("column constraint Absolute alignment left", (1, 28), "Absolute wants 1 width, not 0", WIDTHS),
    ("column constraint", (1, 18), "constraint is missing", COLUMN),
    ("column constraint Boundaries 3", (1, 31), "Boundaries wants 2 widths, not 1", WIDTHS),
    ("column constraint Hidden 3", (1, 26), "Hidden doesn't use 3", WIDTHS),
    ("column constraint Absolute 3 4", (1, 30), "Absolute doesn't use 4", WIDTHS),
    ("column constraint Boundaries 3 4 5", (1, 34), "5 isn't known here", COLUMN),
    ("column constraint Absolute x%", (1, 28), "width: x is no number", WIDTHS),
    ("column constraint Absolute unit 2", (1, 34), "width is missing", COLUMN),
    # Numbers.
    ("target 70000", (1, 8), "target: 70000 is above 65535, which no sheet can hold", "none, or 1 to 400"),
    ("target 2a", (1, 8), "target: 2a is no number", "none, or 1 to 400"),
    ('target "20"', (1, 8), 'target: "20" is no number', "none, or 1 to 400"),
    ("target", (1, 7), "target is missing", "target none, or target WIDTH, 1 to 400"),
    ("target 1" + 5000 * "0", (1, 8), f"target: 1{5000 * '0'} is above 65535, which no sheet can hold", "none"),
    ("edition 1 2", (1, 11), "2 isn't known here", "edition 1"),
    ("padding 1", (1, 10), "right padding is missing", "padding LEFT RIGHT, each 0 to 20"),
    ("column padding 256 1", (1, 16), "left padding: 256 is above 255, which no sheet can hold", "0 to 20"),
    ("row height 256", (1, 12), "height: 256 is above 255, which no sheet can hold", "none, or 1 to 255"),
    # Texts.
    (r'row "a\n"', (1, 7), r"unknown escape \n", ESCAPES),
    (r'row "a\x1"', (1, 7), r"unknown escape \x", ESCAPES),
    ('row "abc', (1, 5), "a text isn't closed", 'a text ends with " in the same line'),
    ('row "a""b"', (1, 8), "a space is missing", r'words and texts are separated by spaces, and " within a'),
    ("row hello", (1, 5), "a cell: hello is no text in quotes", 'row [height N] ["cell" ..]'),
    ("row\n  cell hello", (2, 8), "a cell's line: hello is no text in quotes", CELL),
    (f'row "{256 * "a"}"', (1, 5), "a cell has 256 bytes", BEYOND.format(200)),
    (f'row\n  cell "a" "{256 * "a"}"', (2, 12), "a cell's line has 256 bytes", BEYOND.format(200)),
    (f'indicator "{256 * "a"}"', (1, 11), "indicator has 256 bytes", BEYOND.format(8)),
    # Words and their order.
    ("edition 1\n  colum", (2, 3), "unknown word colum", "a line starts with one of edition, arrangement, target, "),
    ('"target" 20', (1, 1), 'unknown word "target"', "a line starts with one of "),
    (b"\0\0", (1, 1), r"unknown word \x00\x00", "a line starts with one of "),
    ('row\n  cell height 2 "a"', (2, 8), "a cell's line: height is no text in quotes", CELL),
    ("column height 2", (1, 8), "height isn't known here", COLUMN),
    ("padding 1 1 alignment left", (1, 13), "alignment isn't known here", "padding LEFT RIGHT, each 0 to 20"),
    ("row heigth 2", (1, 5), "a cell: heigth is no text in quotes", "row [height N]"),
    ("column alignment left padding 1 1", (1, 23), "padding is given twice or in another order", COLUMN),
    ("column constraint Hidden alignment left", (1, 26), "alignment is given twice or in another order", COLUMN),
    ('row\n  cell alignment left delimiter "a" "b"', (2, 23), "delimiter is given twice or in another order", CELL),
    ('row\n  cell "a" alignment left', (2, 12), "alignment is given twice or in another order", CELL),
    ('row "a" height 2', (1, 9), "height is given twice or in another order", 'row [height N] ["cell" ..]'),
    ("target 20\narrangement Dynamic", (2, 1), "arrangement can't stand after target", ORDER),
    ("target 20\ntarget 20", (2, 1), "target is given twice", ORDER),
    # A column or row before the settings are whole; nothing is dropped.
    ("edition 1\ncolumn\ntarget 20", (3, 1), "target can't stand after column", ORDER),
    ('edition 1\nrow "a"\ntarget 20', (3, 1), "target can't stand after row", ORDER),
    ('row "a"\ncolumn', (2, 1), "column can't stand after row", ORDER),
    ('row "a"\n  cell "b"\nheader "c"', (3, 1), "header can't stand after cell", ORDER),
    ('header "a"\nheader "b"', (2, 1), "header is given twice", ORDER),
    ('column\n  cell "a"', (2, 3), "a cell without a row", "cells stand below the header or row that they belong to"),
    # Counts.
    (256 * "column\n", (256, 1), "256 columns", BEYOND.format(12)),
    (256 * "row\n", (256, 1), "256 rows", BEYOND.format(100)),
    ("column\nrow\n" + 256 * "  cell\n", (258, 3), "256 cells", BEYOND.format(12)),
    ("row" + 256 * ' "a"', (1, 5 + 4 * 255), "256 columns", BEYOND.format(12)),
    ("row\n  cell" + 256 * ' ""', (2, 8 + 3 * 255), "256 lines", BEYOND.format(8)),
    # Bytes that aren't ASCII.
    (b'edition 1\nrow "caf\xc3\xa9"', (2, 9), "byte C3 (hexadecimal) isn't ASCII", ASCII),
    (b"edition 1 # 20 \xb0C", (1, 16), "byte B0 (hexadecimal) isn't ASCII", ASCII),
    (b"\xef\xbb\xbfedition 1", (1, 1), "byte EF (hexadecimal) isn't ASCII", ASCII),
    (b'row "\xc2\xb0\xb0"', (1, 7), "byte B0 (hexadecimal) isn't ASCII", ASCII),
    (b'row "\xc2\xb0\xc2', (1, 7), "byte C2 (hexadecimal) isn't ASCII", ASCII),
    # The degree sign where no cell is.
    ('indicator "..\xb0"', (1, 14), "indicator: \xb0 isn't ASCII", CELLS_ONLY),
    ('delimiter "\xb0"', (1, 12), "delimiter: \xb0 isn't ASCII", CELLS_ONLY),
    ('column delimiter "\xb0"', (1, 19), "delimiter: \xb0 isn't ASCII", CELLS_ONLY),
    ('row\n  cell delimiter "\xb0" "21.5\xb0C"', (2, 19), "delimiter: \xb0 isn't ASCII", CELLS_ONLY),
    ('top "+-\xb0+"', (1, 8), "top: \xb0 isn't ASCII", CELLS_ONLY),
    ("row 21.5\xb0C", (1, 5), "a cell: 21.5\xb0C is no text in quotes", 'row [height N] ["cell" ..]'),
    (f'row "{128 * chr(0xB0)}"', (1, 5), "a cell has 256 bytes", BEYOND.format(200)),
    # Damage.
    ("bytes 0", (1, 7), "0 isn't made of bytes", "bytes 01 FF .., each of two hexadecimal digits"),
    ("bytes", (1, 6), "a byte is missing", "bytes 01 FF .., each of two hexadecimal digits"),
    ('bytes 00\nrow "a"', (2, 1), "row can't stand after bytes", ORDER),
    ('row "a"\nbytes 00\n  cell "b"', (3, 3), "a cell without a row", "cells stand below the header or row"),
    ("cut 900", (1, 5), "cut 900 cuts nothing", "the sheet has 35 bytes"),
    ("cut 35", (1, 5), "cut 35 cuts nothing", "the sheet has 35 bytes"),
    ("cut 3\ncut 2", (2, 1), "cut is given twice", ORDER),
    ("edition 1\nraw", (2, 1), "raw can't stand here", RAW),
    ("raw\nedition 1", (2, 1), "edition can't stand here", RAW),
]


class WrongForms(DeskTest):
    def assert_said(self, done, path, case):
        _, (line, column), message, right = case
        self.assertEqual((done.returncode, done.stdout), (1, b""))
        said = done.said.splitlines()
        self.assertEqual(said[0], f"{path}, line {line}, column {column}: {message}")
        self.assertTrue(said[1].startswith(f"  right: {right}"), said[1])
        self.assertEqual(len(said), 2)

    def test_each(self):
        for case in WRONG:
            with self.subTest(form=case[0][:60]):
                path = self.file(case[0])
                self.assert_said(self.sheets("make", path), path, case)

    def test_damaged_forms_never_end_in_a_traceback(self):
        chance, wrong = random.Random(20261116), 0
        forms = [path.read_bytes() for path in sorted((ROOT / "sheets").glob("*.txt"))]
        words = b" ".join(forms).split()
        for _ in range(2000):
            damaged = bytearray(chance.choice(forms))
            for _ in range(chance.randint(1, 3)):
                at = chance.randrange(len(damaged))
                new = chance.choice([b" " + chance.choice(words) + b" ", b'"', b"\\", b"\xff"])
                damaged[at : at + chance.randrange(4)] = new
            try:
                form.read(bytes(damaged))
            except Wrong as error:
                wrong += 1
                self.assertTrue(error.message and error.right and min(error.at[:2]) >= 1)
        self.assertGreater(wrong, 1000)

    def test_every_command_says_the_same(self):
        for command in ["make", "print", "explain"]:
            path = self.file(WRONG[0][0])
            for root in [None, ROOT]:
                self.assert_said(self.sheets(command, path, root=root), path, WRONG[0])

    def test_the_folder_names_each_wrong_form(self):
        root = self.tree()
        for name in ["desk", "house"]:
            (root / f"sheets/{name}.txt").write_text("column alignment center\n")
        for command in [["check"], ["build"], ["all", self.folder / "all"], ["replay", "cat"]]:
            done = self.sheets(*command, root=root)
            self.assertEqual((done.returncode, done.stdout), (1, b""))
            for name in ["desk", "house"]:
                self.assertIn(f"sheets/{name}.txt, line 1, column 18: alignment: center isn't known\n", done.said)
