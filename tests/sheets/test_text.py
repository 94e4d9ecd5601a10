"""A sheet back as its text form: making it again gives the same bytes."""

from desk import ROOT, DeskTest

from sheetdesk import fields, form
from sheetdesk.text import text


def number(data, at, size):
    return int.from_bytes(data[at : at + size], "little"), at + size


def sample():
    """The sheets of the stored sample with the number and place that refuse them; tests/c/stored.c reads it too."""
    data, at = (ROOT / "tools/differential/sample/answers.bin").read_bytes(), 0
    while at < len(data):
        size, at = number(data, at, 2)
        sheet, at = data[at : at + size], at + size
        refused, at = number(data, at, 1)
        place, at = number(data, at, 2)
        if refused == 0:
            columns, at = number(data, at, 1)
            page, at = number(data, at + 3 * columns + 4, 4)
            at += page
        yield sheet, refused, place


class Text(DeskTest):
    def test_stored_sheets(self):
        for path in sorted((ROOT / "sheets").glob("*.sheet")):
            with self.subTest(path=path.name):
                done = self.sheets("text", path)
                self.assertEqual((done.said, done.returncode), ("", 0))
                self.assertEqual(self.made(done.stdout), path.read_bytes())

    def test_sample(self):
        seen = set()
        for sheet, refused, _ in sample():
            written = text(sheet)
            self.assertEqual(form.read(written.encode()).sheet, sheet)
            if refused == 0:
                self.assertNotIn("raw", written.splitlines()[0])
                self.assertNotIn(written.splitlines()[-1].split()[0], ["bytes", "cut"])
            seen.add(refused)
        self.assertLessEqual({0, 1, 3, 4, 5, 6, 7, 8, 9}, seen)

    def test_each_start_of_a_sheet(self):
        whole = (ROOT / "sheets/degrees.sheet").read_bytes()
        for size in range(len(whole)):
            written = text(whole[:size])
            self.assertEqual(form.read(written.encode()).sheet, whole[:size])
            self.assertTrue(written.endswith(f"\ncut {size}\n"))

    def test_each_byte_damaged(self):
        whole = bytearray((ROOT / "sheets/degrees-cut.sheet").read_bytes())
        for at in range(len(whole)):
            for byte in [0, 1, 2, 7, 13, 0xB0, 0xC2, 255]:
                damaged = bytes(whole[:at] + bytes([byte]) + whole[at + 1 :])
                self.assertEqual(form.read(text(damaged).encode()).sheet, damaged)

    def test_words(self):
        table = 'column padding 1 20 delimiter "\\"" alignment centre constraint Boundaries 5 50%\n'
        table += "column padding 0 0 constraint Absolute unit 2 10\ncolumn padding 0 0 alignment 9 constraint 7\n"
        table += "column padding 0 0 constraint Hidden unit 0 0 unit 0 256\n"
        table += 'header height 3\n  cell delimiter "/" alignment right "a" "\\x09"\nrow\nbytes 01 FF\n'
        settings = 'edition 1\narrangement 7\ntarget 401\ndelimiter ";"\nindicator "\\\\"\n'
        drawn = 'top unset\nheader-lines "|\\0|"\nheader-rule unset\ncontent-lines "|\\0|"\n'
        for style in ["style ASCII_FULL\n", drawn + 'row-rule unset\nbottom "+-\\0+"\n']:
            done = self.sheets("text", self.file(self.made(settings + style + table), "a.sheet"))
            self.assertEqual(done.stdout.decode("ascii"), settings + style + table)

    def test_signs(self):
        table = '  cell "21.5\xb0C" "\xb0\xb0" "\\xC2" "\\xC2\xb0\\xB0"\n'
        made = self.made("indicator \"\\xC2\\xB0\"\nrow\n" + table)
        self.assertTrue(made.endswith(b"\x0721.5\xc2\xb0C\4\xc2\xb0\xc2\xb0\1\xc2\4\xc2\xc2\xb0\xb0"))
        written = self.sheets("text", self.file(made, "a.sheet")).stdout.decode()
        self.assertIn('\nindicator "\\xC2\\xB0"\n', written)
        self.assertTrue(written.endswith(table))

    def test_bytes_where_no_word_fits(self):
        done = self.sheets("text", self.file(b"\1\0\0\0\0\0\x15\n", "a.sheet"))
        self.assertEqual(done.stdout, b"raw\nbytes 01 00 00 00 00 00 15 0A\n")

    def test_a_text_form_is_no_sheet(self):
        done = self.sheets("text", ROOT / "sheets/desk.txt")
        self.assertEqual((done.returncode, done.stdout), (2, b""))
        self.assertIn("desk.txt is a text form, and a sheet is wanted", done.said)


class Names(DeskTest):
    """The field that is named at a refusal's place is one that can get its number."""

    ENDS = {
        3: ["edition"],
        4: ["arrangement", "alignment", "constraint", "unit"],
        5: ["target width", "length", "characters", "columns", "headers", "rows", "cells", "lines", "padding", "value"],
        7: ["count of cells"],
        8: ["width, unit", "width, value"],
    }

    def test_sample(self):
        for sheet, refused, place in sample():
            if refused in (0, 2):
                continue
            field = fields.field_at(sheet, place)
            if refused == 9:
                self.assertIsNone(field)
            elif refused == 6:
                self.assertIn(field.kind, ["character", "cell text"])
                self.assertEqual(field.start, place)
            elif refused == 1:
                self.assertGreater(field.start + field.size, len(sheet))
            else:
                self.assertTrue(any(field.name.endswith(end) for end in self.ENDS[refused]), (refused, field))
                self.assertTrue(refused == 8 or field.start == place)
