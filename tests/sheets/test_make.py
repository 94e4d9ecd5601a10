"""What a right text form makes: defaults, styles, damage."""

from desk import ROOT, DeskTest

HOUSE = b"+-++" b"|||" b"+=++" b"|||" b"+-++" b"+-++"
WHOLE = """edition 1
arrangement Dynamic
target none
delimiter none
indicator "..."
style house
"""
# The pictures that comfy-table's presets are known by, a line after another.
PICTURES = {
    "house": "+-------+-------+|| Hello | there ||+=======+=======+|| a     | b     ||+-------+-------+|"
    "| c     | d     ||+-------+-------+|",
    "bare": " Hello  there | a      b     | c      d     |",
    "ASCII_FULL": "+-------+-------+|| Hello | there ||+===============+|| a     | b     |||-------+-------||"
    "| c     | d     ||+-------+-------+|",
    "ASCII_FULL_CONDENSED": "+-------+-------+|| Hello | there ||+===============+|| a     | b     ||"
    "| c     | d     ||+-------+-------+|",
    "ASCII_NO_BORDERS": " Hello | there |===============| a     | b     |-------+-------| c     | d     |",
    "ASCII_BORDERS_ONLY": "+---------------+|| Hello   there ||+===============+|| a       b     |||               ||"
    "| c       d     ||+---------------+|",
    "ASCII_BORDERS_ONLY_CONDENSED": "+---------------+|| Hello   there ||+===============+|| a       b     ||"
    "| c       d     ||+---------------+|",
    "ASCII_HORIZONTAL_ONLY": "---------------| Hello   there |===============| a       b     |---------------|"
    " c       d     |---------------|",
    "ASCII_MARKDOWN": "| Hello | there |||-------|-------||| a     | b     ||| c     | d     ||",
    "NOTHING": " Hello  there | a      b     | c      d     |",
}


class Make(DeskTest):
    def test_bytes_of_every_stored_sheet(self):
        for path in sorted((ROOT / "sheets").glob("*.sheet")):
            with self.subTest(path=path.name):
                done = self.sheets("make", path.with_suffix(".txt"))
                self.assertEqual((done.stdout, done.said, done.returncode), (path.read_bytes(), "", 0))

    def test_left_out_settings(self):
        expected = bytes([1, 1, 0, 0, 0, 3]) + b"..." + bytes([22]) + HOUSE + bytes([0, 0, 0])
        self.assertEqual(self.made(""), expected)
        self.assertEqual(self.made(WHOLE), expected)
        self.assertEqual(self.made("edition 1\r\n\t# nothing\r\n"), expected)
        for line in WHOLE.splitlines():
            self.assertEqual(self.made(line), expected)

    def test_styles(self):
        for name, picture in PICTURES.items():
            with self.subTest(style=name):
                table = 'header "Hello" "there"\nrow "a" "b"\nrow "c" "d"\n'
                page = self.page(f"style {name}\npadding 1 1\n{table}")
                self.assertEqual(page.replace("\n", "|"), picture)

    def test_a_style_line_replaces_that_of_the_style(self):
        self.assertEqual(self.page('style ASCII_MARKDOWN\nrow-rule "|.||"\nrow "a"\nrow "b"'), "|a|\n|.|\n|b|\n")
        self.assertEqual(self.page('top unset\nbottom unset\nrow "a"'), "|a|\n")

    def test_columns_are_counted(self):
        form = 'header "a"\nrow\nrow "b" "c" "d"\nrow "e" "f"\n'
        self.assertEqual(self.made(form), self.made("column\ncolumn\ncolumn\n" + form))
        self.assertEqual(self.made("row\n"), self.made("row\n  # no cell\n"))

    def test_padding_once(self):
        self.assertEqual(
            self.made('padding 1 2\ncolumn\ncolumn padding 0 3 alignment left\nrow "a" "b"'),
            self.made('column padding 1 2\ncolumn padding 0 3 alignment left\nrow "a" "b"'),
        )
        self.assertEqual(self.made('padding 1 1\nrow "a" "b"'), self.made(2 * "column padding 1 1\n" + 'row "a" "b"'))
        self.assertEqual(self.made('row "a"'), self.made('column padding 0 0\nrow "a"'))

    def test_cells_in_the_row_line(self):
        form = 'row height 2\n cell "a"\n cell "b"\n cell "c" "d"'
        self.assertEqual(self.made('row height 2 "a" "b"\n  cell "c" "d"'), self.made(form))

    def test_escapes(self):
        self.assertTrue(self.made(r'row "\"\\\0\x7f#"').endswith(b'\x01\x05"\\\x00\x7f#'))

    def test_signs(self):
        self.assertTrue(self.made('row "21.5\xb0C" # \xb0').endswith(b"\1\x0721.5\xc2\xb0C"))
        self.assertEqual(self.made('row "\xb0"'), self.made(r'row "\xC2\xB0"'))
        self.assertTrue(self.made(f'row "{127 * chr(0xB0)}a"').endswith(b"\xff" + 127 * b"\xc2\xb0" + b"a"))

    def test_damage(self):
        whole = self.made('row "a"')
        self.assertEqual(self.made('row "a"\nbytes 01 ff0A\npad 3 7\ncut 20'), whole[:20])
        self.assertEqual(self.made('row "a"\nbytes 01 ff0A\npad 3 7'), whole + b"\x01\xff\x0a\x07\x07\x07")
        self.assertEqual(self.made("raw"), b"")
        self.assertEqual(self.made("raw\npad 2 1\nbytes 02"), b"\1\1\2")
        self.assertEqual(self.made("arrangement 9\ncut 2"), b"\1\x09")
        column = self.made("column constraint Hidden unit 0 0 unit 2 258")[33:44]
        self.assertEqual(column, bytes([0, 0, 0, 0, 1, 0, 0, 0, 2, 2, 1]))
        self.assertEqual(self.made("column constraint 7 10%")[33:44], bytes([0, 0, 0, 0, 7, 1, 10, 0, 0, 0, 0]))

    def test_a_sheet_is_no_text_form(self):
        done = self.sheets("make", ROOT / "sheets/desk.sheet")
        self.assertEqual((done.returncode, done.stdout), (2, b""))
        self.assertIn("desk.sheet is a sheet, and a text form is wanted", done.said)


class Readme(DeskTest):
    """What sheets/README.md shows is what the tool answers."""

    def setUp(self):
        super().setUp()
        blocks = (ROOT / "sheets/README.md").read_text("utf-8").split("\n\n")
        blocks = [block for block in blocks if block.startswith("    ")]
        self.blocks = ["".join(line[4:] + "\n" for line in block.splitlines()) for block in blocks]

    def test_first_table(self):
        form, page = self.blocks[:2]
        self.assertEqual(len(form.splitlines()), 10)
        self.assertEqual(self.page(form), page)
        self.assertEqual(form, (ROOT / "sheets/ten-lines.txt").read_text("ascii"))

    def test_messages(self):
        wrong = self.file("column alignment center\n", "wrong.txt")
        self.assertEqual(self.sheets("print", wrong).said.replace(f"{self.folder}/", ""), self.blocks[3])
        bad = self.file('target 44\ncolumn padding 1 21\nrow "kitchen"\n', "bad.txt")
        said = self.sheets("explain", bad).stdout.decode("ascii")
        self.assertEqual(said.replace(f"{self.folder}/", ""), self.blocks[4])

    def test_styles(self):
        rows = [line for line in (ROOT / "sheets/README.md").read_text("utf-8").splitlines() if line.startswith("| `")]
        for name in PICTURES:
            row = next(row for row in rows if f"`{name}`" in row.split(" | ")[0])
            cells = row.replace("\\|", "!").strip("| ").split(" | ")[1:]
            lines = [cell.strip("`").replace("!", "|") for cell in cells]
            heads = ["top", "header-lines", "header-rule", "content-lines", "row-rule", "bottom"]
            form = "".join(f'{head} "{line}"\n' for head, line in zip(heads, lines)).replace('"unset"', "unset")
            self.assertEqual(self.made(form), self.made(f"style {name}"))
