"""A refusal in words, an accepted sheet's counts and widths, and the page; all of it the library's answer."""

import os
import subprocess
import sys

from desk import ROOT, DeskTest

CONSTRAINTS = "0 none, 1 Hidden, 2 ContentWidth, 3 Absolute, 4 LowerBoundary, 5 UpperBoundary, 6 Boundaries"
ALIGNMENTS = "0 none, 1 left, 2 right, 3 centre"
PRINTABLE = "a printable character, 20 to 7E hexadecimal"
CELL_TEXT = PRINTABLE + ", or a degree sign, C2 B0"
ELSEWHERE = "of a degree sign, which only the text of a cell may hold"
WORDS = {
    1: "the sheet ends before this field is whole",
    2: "the sheet is over 32,768 bytes",
    3: "the edition is not 1",
    4: "unknown code",
    5: "a count, length or value is beyond its limits",
    6: "a byte is neither printable nor an allowed 0",
    7: "more cells than columns",
    8: "a byte of an unused width is not 0",
    9: "there are bytes after the last row",
}
LAST = " (the last one counted)"
END = " (the sheet ends here)"

# The form, number and place, field, value, limits, line and column.
REFUSED = [
    ("raw", (1, 0), "edition", "missing: the sheet's 0 bytes end before it", "1", (1, 1, END)),
    ("raw\nbytes 01", (1, 1), "arrangement", "missing: the sheet's 1 bytes end before it",
     "0 Disabled, 1 Dynamic, 2 DynamicFullWidth", (2, 7, END)),
    ("target 20\ncut 3", (1, 3), "target width", "missing: the sheet's 3 bytes end within it",
     "0 for none, else 1 to 400", (2, 5, END)),
    ("raw\npad 32769 0", (2, 32768), "the whole sheet, length", "32,769 bytes", "at most 32,768 bytes", (2, 11, "")),
    ("edition 2", (3, 0), "edition", "2", "1", (1, 9, "")),
    ("arrangement 3", (4, 1), "arrangement", "3", "0 Disabled, 1 Dynamic, 2 DynamicFullWidth", (1, 13, "")),
    ("column alignment 4", (4, 36), "column 1, alignment", "4", ALIGNMENTS, (1, 18, "")),
    ("column constraint 7", (4, 37), "column 1, constraint", "7", CONSTRAINTS, (1, 19, "")),
    ("column constraint Absolute unit 2 9", (4, 38), "column 1, first width, unit", "2",
     "0 fixed, 1 percent", (1, 33, "")),
    ('row\n cell "a"\n cell alignment 9 "b"', (4, 65), "row 1, cell 2, alignment", "9", ALIGNMENTS, (3, 17, "")),
    ("target 401", (5, 2), "target width", "401", "0 for none, else 1 to 400", (1, 8, "")),
    ('indicator "123456789"', (5, 5), "indicator, length", "9", "0 to 8", (1, 11, "")),
    (13 * "column\n", (5, 32), "count of columns", "13", "0 to 12", (13, 1, LAST)),
    ("row" + 13 * ' "a"', (5, 32), "count of columns", "13", "0 to 12", (1, 53, LAST)),
    ("column padding 1 21", (5, 34), "column 1, right padding", "21", "0 to 20", (1, 18, "")),
    ("column\ncolumn padding 21 1", (5, 44), "column 2, left padding", "21", "0 to 20", (2, 16, "")),
    ('padding 1 21\nrow "a"', (5, 34), "column 1, right padding", "21", "0 to 20", (1, 11, "")),
    ("column constraint Boundaries 1 401", (5, 42), "column 1, second width, value", "401", "0 to 400", (1, 32, "")),
    (101 * "row\n", (5, 34), "count of rows", "101", "0 to 100", (101, 1, LAST)),
    ("column\nrow" + 13 * ' "a"', (5, 47), "row 1, count of cells", "13",
     "0 to 12, and no more than the columns, which are 1", (2, 53, LAST)),
    ("header\n cell", (5, 49), "header, cell 1, count of lines", "0",
     "1 to 8; an empty cell has one empty line", (2, 2, "")),
    (f'row "{201 * "a"}"', (5, 51), "row 1, cell 1, line 1, length", "201", "0 to 200", (1, 5, "")),
    ('delimiter "\\x07"', (6, 4), "table delimiter", "07 hexadecimal", f"0 for none, else {PRINTABLE}", (1, 12, "")),
    ('bottom "+-+\\x7F"', (6, 31), "style, bottom border, right", "7F hexadecimal",
     f"0 for none, else {PRINTABLE}", (1, 12, "")),
    ('row "a\\\\b\\0"', (6, 55), "row 1, cell 1, line 1, character 4", "00 hexadecimal", CELL_TEXT, (1, 10, "")),
    # Halves of a degree sign; a whole one is one character.
    ('row "\xb0a\xb0"\ncut 56', (1, 56), "row 1, cell 1, line 1, character 3",
     "missing: the sheet's 56 bytes end within it", CELL_TEXT, (2, 5, END)),
    (r'row "\xC2"', (6, 52), "row 1, cell 1, line 1, character 1",
     "C2 hexadecimal, the first byte of a degree sign, alone", CELL_TEXT, (1, 6, "")),
    ('row "\xb0\\xC2 "', (6, 54), "row 1, cell 1, line 1, character 2", "C2 20 hexadecimal, C2 without B0 after it",
     CELL_TEXT, (1, 7, "")),
    ('row "\xb0\\xB0"', (6, 54), "row 1, cell 1, line 1, character 2",
     "B0 hexadecimal, the second byte of a degree sign, alone", CELL_TEXT, (1, 7, "")),
    (r'indicator ".\xC2\xB0"', (6, 7), "indicator, character 2", f"C2 hexadecimal, the first byte {ELSEWHERE}",
     PRINTABLE, (1, 13, "")),
    (r'delimiter "\xB0"', (6, 4), "table delimiter", f"B0 hexadecimal, the second byte {ELSEWHERE}",
     f"0 for none, else {PRINTABLE}", (1, 12, "")),
    ('column\nheader\nrow\nrow "a" "b"', (7, 51), "row 2, count of cells", "2",
     "0 to 12, and no more than the columns, which are 1", (4, 9, LAST)),
    ("column constraint Hidden unit 0 0 unit 0 256", (8, 43), "column 1, second width, value", "256",
     "0: not used by this constraint", (1, 42, "")),
    ('row "a"\nbytes 41', (9, 53), "after the last row", "41 hexadecimal, the character A",
     "nothing follows the last row", (2, 7, "")),
]

# Answers that no sheet gets from the printer, so that the tool can have them from the library alone.
OTHER_LIBRARY = """
#include "cagwoni.h"
cagwoni_checked cagwoni_check(const uint8_t *s, size_t n) { return (cagwoni_checked){ANSWER}; }
cagwoni_counted cagwoni_count(const uint8_t *s, size_t n) { return (cagwoni_counted){0, 0, 4321, 3}; }
cagwoni_measured cagwoni_widths(const uint8_t *s, size_t n) {
    return (cagwoni_measured){0, 0, 2, {777, 888}, {false, true}};
}
cagwoni_printed cagwoni_print_page(const uint8_t *s, size_t n, uint8_t *p, size_t m) {
    p[0] = 'X'; p[1] = 'Y'; p[2] = 10;
    return (cagwoni_printed){0, 0, 3};
}
"""


class Explain(DeskTest):
    def explained(self, path):
        done = self.sheets("explain", path)
        self.assertEqual((done.said, done.returncode), ("", 0))
        return done.stdout.decode("ascii").splitlines()

    def test_each_refusal(self):
        self.assertEqual({case[1][0] for case in REFUSED}, set(WORDS))
        for form, (number, place), field, value, limits, (line, column, note) in REFUSED:
            with self.subTest(form=form[:60]):
                path = self.file(form)
                first = [f"refused {number} at {place}: {WORDS[number]}", f"  field    {field}", f"  value    {value}"]
                first.append(f"  limits   {limits}")
                written = f"  written  {path}, line {line}, column {column}{note}"
                self.assertEqual(self.explained(path), [f"{path}:", *first, written])
                sheet = self.file(self.made(form), "form.sheet")
                self.assertEqual(self.explained(sheet), [f"{sheet}:", *first])

    def test_print_explains_a_refusal(self):
        path = self.file("target 401")
        done = self.sheets("print", path)
        self.assertEqual((done.returncode, done.stdout), (1, b""))
        self.assertEqual(done.said.splitlines(), self.explained(path))

    def test_accepted(self):
        for name in ["hidden.txt", "hidden.sheet"]:
            path = ROOT / "sheets" / name
            self.assertEqual(self.explained(path), [
                f"{path}:",
                "accepted: 197 bytes, 4 columns, a header, 1 row",
                "  page      5 lines, 145 bytes",
                "  column 1  hidden, content width 5, padding 1 and 1",
                "  column 2  content width 11, padding 1 and 1",
                "  column 3  hidden, content width 12, padding 1 and 1",
                "  column 4  content width 10, padding 1 and 1",
            ])

    def test_pages(self):
        for path in sorted((ROOT / "sheets").glob("*.sheet")):
            page = path.with_suffix(".page").read_bytes()
            if not page.startswith(b"refused"):
                for name in [path, path.with_suffix(".txt")]:
                    done = self.sheets("print", name)
                    self.assertEqual((done.stdout, done.said, done.returncode), (page, "", 0))

    def test_a_file_name_that_is_no_text(self):
        path = self.file('row "a"', os.fsdecode(b"\xff.txt"))
        self.assertIn(b"accepted: 53 bytes", self.sheets("explain", path, root=ROOT).stdout)

    def test_kind_of_a_file(self):
        form, sheet = b'# a form\nrow "a"\n', (ROOT / "sheets/desk.sheet").read_bytes()
        for name, data, said in [
            ("form", form, "accepted: 53 bytes"),
            ("sheet", sheet, "accepted: 81 bytes"),
            ("printable.sheet", form, "refused 3 at 0: the edition is not 1"),
            ("empty", b"", "refused 1 at 0: the sheet ends before this field is whole"),
        ]:
            self.assertTrue(self.explained(self.file(data, name))[1].startswith(said), name)


class AnotherLibrary(DeskTest):
    def library(self, root, answer, time):
        """Puts another archive in the tree."""
        folder = root / "target/staticlib"
        folder.mkdir(parents=True, exist_ok=True)
        source = self.file(OTHER_LIBRARY.replace("ANSWER", answer), "other.c")
        objects = self.folder / "other.o"
        subprocess.run(["gcc", "-fPIC", "-I", root / "include", "-c", source, "-o", objects], check=True)
        subprocess.run(["ar", "rc", folder / "libgateway.a", objects], check=True)
        os.utime(folder / "libgateway.a", (time, time))

    def test_answers_are_the_librarys(self):
        root = self.tree()
        self.library(root, "0, 0", 1)
        path = root / "sheets/refused-7.sheet"
        done = self.sheets("explain", path, root=root)
        self.assertEqual(done.stdout.decode("ascii").splitlines()[1:], [
            "accepted: 90 bytes, 2 columns, no header, 1 row",
            "  page      4,321 lines, 3 bytes",
            "  column 1  content width 777, padding 1 and 1",
            "  column 2  hidden, content width 888, padding 1 and 1",
        ])
        self.assertEqual(self.sheets("print", path, root=root).stdout, b"XY\n")
        # A new archive is linked anew.
        self.library(root, "8, 32", 2)
        done = self.sheets("explain", root / "sheets/desk.txt", root=root)
        said = done.stdout.decode("ascii").splitlines()
        self.assertEqual(said[1], f"refused 8 at 32: {WORDS[8]}")
        self.assertEqual(said[2:4], ["  field    column 1, delimiter", "  value    00 hexadecimal"])
        self.assertEqual(os.listdir(root / "target/sheets"), ["libgateway.so"])
        self.library(root, "5, 6", 3)
        done = self.sheets("explain", root / "sheets/desk.txt", root=root)
        said = done.stdout.decode("ascii").splitlines()
        self.assertEqual(said[2], "  field    style, count of characters")
        self.assertEqual(said[5], "  written  nowhere in the text form: it was left out")

    def test_no_library(self):
        root = self.tree()
        for command in ["print", "explain"]:
            done = self.sheets(command, root / "sheets/desk.sheet", root=root)
            self.assertEqual((done.returncode, done.stdout), (3, b""))
            self.assertIn("no library at target/staticlib/libgateway.a: run `tools/build gateway` first", done.said)
            wrong = self.sheets(command, self.file("colum"), root=root)
            self.assertIn("unknown word colum", wrong.said)
        for command, name in [("make", "desk.txt"), ("text", "desk.sheet")]:
            self.assertEqual(self.sheets(command, root / "sheets" / name, root=root).returncode, 0)

    def test_no_gcc(self):
        root = self.tree()
        self.library(root, "0, 0", 1)
        words = [sys.executable, root / "tools/sheets", "print", root / "sheets/desk.sheet"]
        done = subprocess.run(words, env={"PATH": str(self.folder)}, capture_output=True)
        self.assertEqual((done.returncode, done.stdout), (3, b""))
        self.assertIn(b"gcc is needed to link target/staticlib/libgateway.a", done.stderr)
