"""The sheet's fields: each one's name, place, size and limits, as docs/FORMAT.md describes them.

This names what stands at a place. It judges nothing: numbers and places of refusals are the library's.
"""

from collections import namedtuple

from . import styles
from .words import SIGN

ARRANGEMENTS = ["Disabled", "Dynamic", "DynamicFullWidth"]
ALIGNMENTS = ["none", "left", "right", "centre"]
# Each constraint and the widths that it uses.
CONSTRAINTS = {
    "none": 0,
    "Hidden": 0,
    "ContentWidth": 0,
    "Absolute": 1,
    "LowerBoundary": 1,
    "UpperBoundary": 1,
    "Boundaries": 2,
}


def codes(names):
    return ", ".join(f"{code} {name}" for code, name in enumerate(names))


COUNT = "0 to {}"
TARGET = "0 for none, else 1 to 400"
PRINTABLE = "a printable character, 20 to 7E hexadecimal"
UNSET = f"0 for none, else {PRINTABLE}"
CELL_TEXT = f"{PRINTABLE}, or a degree sign, C2 B0"
PADDING = "0 to 20"
HEIGHT = "0 for none, else 1 to 255"
LINE_COUNT = "1 to 8; an empty cell has one empty line"
VALUES = {0: "0 to 400", 1: "0 to 65535 percent"}

Width = namedtuple("Width", "unit value")
Column = namedtuple("Column", "left right delimiter alignment constraint widths")
Cell = namedtuple("Cell", "delimiter alignment lines")
Row = namedtuple("Row", "height cells")
Table = namedtuple("Table", "edition arrangement target delimiter indicator style columns header rows")
Field = namedtuple("Field", "name start size limits kind")


class Reader:
    """Takes a sheet's fields from the left. Past the sheet's end each field is there as well, and is 0 unless said."""

    def __init__(self, sheet):
        self.sheet, self.at, self.fields = sheet, 0, []

    def take(self, name, limits, size=1, kind="number", missing=0):
        self.fields.append(Field(name, self.at, size, limits, kind))
        there = self.sheet[self.at : self.at + size]
        self.at += size
        return int.from_bytes(there, "little") if there else missing

    def text(self, name, size):
        """As many characters, each a field of its own."""
        return bytes(self.take(f"{name}, character {at + 1}", PRINTABLE, kind="character") for at in range(size))

    def line(self, name, size):
        """A cell's text of so many bytes: each character is a field, the two bytes of a degree sign too."""
        start, end, count = self.at, self.at + size, 0
        while self.at < end:
            count += 1
            begins_sign = self.sheet[self.at : self.at + 1] == SIGN.encode()[:1] and self.at + 1 < end
            self.take(f"{name}, character {count}", CELL_TEXT, size=1 + begins_sign, kind="cell text")
        return self.sheet[start:end].ljust(size, b"\0")

    def character(self, name):
        return self.take(name, UNSET, kind="character")

    def style(self):
        self.take("style, count of characters", str(styles.SIZE))
        names = [f"style, {line}, {part}" for line, parts in styles.LINES.values() for part in parts]
        return bytes(self.character(name) for name in names)

    def width(self, name, used):
        if not used:
            why = "0: not used by this constraint"
            return Width(self.take(f"{name}, unit", why), self.take(f"{name}, value", why, size=2))
        unit = self.take(f"{name}, unit", "0 fixed, 1 percent")
        return Width(unit, self.take(f"{name}, value", VALUES.get(unit, VALUES[0]), size=2))

    def column(self, name):
        left = self.take(f"{name}, left padding", PADDING)
        right = self.take(f"{name}, right padding", PADDING)
        delimiter = self.character(f"{name}, delimiter")
        alignment = self.take(f"{name}, alignment", codes(ALIGNMENTS))
        constraint = self.take(f"{name}, constraint", codes(CONSTRAINTS))
        uses = used_widths(constraint)
        widths = [self.width(f"{name}, first width", uses > 0), self.width(f"{name}, second width", uses > 1)]
        return Column(left, right, delimiter, alignment, constraint, widths)

    def cell(self, name):
        delimiter = self.character(f"{name}, delimiter")
        alignment = self.take(f"{name}, alignment", codes(ALIGNMENTS))
        lines = []
        for at in range(1, 1 + self.take(f"{name}, count of lines", LINE_COUNT)):
            size = self.take(f"{name}, line {at}, length", COUNT.format(200))
            lines.append(self.line(f"{name}, line {at}", size))
        return Cell(delimiter, alignment, lines)

    def row(self, name, columns):
        height = self.take(f"{name}, height limit", HEIGHT)
        limits = f"0 to 12, and no more than the columns, which are {columns}"
        count = self.take(f"{name}, count of cells", limits)
        return Row(height, [self.cell(f"{name}, cell {at + 1}") for at in range(count)])

    def table(self):
        edition = self.take("edition", "1", missing=1)
        arrangement = self.take("arrangement", codes(ARRANGEMENTS))
        target = self.take("target width", TARGET, size=2)
        delimiter = self.character("table delimiter")
        indicator = self.text("indicator", self.take("indicator, length", COUNT.format(8)))
        style = self.style()
        count = self.take("count of columns", COUNT.format(12))
        columns = [self.column(f"column {at + 1}") for at in range(count)]
        headers = [self.row("header", count) for _ in range(self.take("count of headers", "0 or 1"))]
        rows = [self.row(f"row {at + 1}", count) for at in range(self.take("count of rows", COUNT.format(100)))]
        return Table(edition, arrangement, target, delimiter, indicator, style, columns, headers, rows)


def used_widths(constraint):
    uses = list(CONSTRAINTS.values())
    return uses[constraint] if constraint < len(uses) else 0


def read(sheet):
    """The table that a sheet holds, and where it ends; that is past the sheet if it ends early."""
    reader = Reader(sheet)
    return reader.table(), reader.at


def apart(table):
    """A table as an editor gives it to the library: numbers and text, in the sheet's order."""
    numbers = [*table[:4], len(table.indicator), len(table.style), len(table.columns)]
    texts = [table.indicator, table.style]
    for column in table.columns:
        numbers += [*column[:5], *column.widths[0], *column.widths[1]]
    for rows in [table.header, table.rows]:
        numbers.append(len(rows))
        for row in rows:
            numbers += [row.height, len(row.cells)]
            for cell in row.cells:
                numbers += [cell.delimiter, cell.alignment, len(cell.lines), *map(len, cell.lines)]
                texts += cell.lines
    return numbers, b"".join(texts)


def field_at(sheet, place):
    """The field that holds the byte at this place, or None after the last row."""
    reader = Reader(sheet)
    reader.table()
    return next((field for field in reader.fields if field.start <= place < field.start + field.size), None)
