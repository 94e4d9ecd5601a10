"""A text form read into its sheet. sheets/README.md says what a text form is."""

import re
from collections import namedtuple

from . import fields, styles, words
from .words import Wrong, beyond_a_byte, spread

CONTENT = ["edition", "arrangement", "target", "delimiter", "indicator"]
SETTINGS = [*CONTENT, "style", *styles.LINES, "padding"]
RANKS = {name: rank for rank, name in enumerate(["raw", *SETTINGS, "column", "header", "row", "bytes", "cut"])}
RANKS["pad"] = RANKS["bytes"]
REPEATED = ["column", "row", "bytes", "pad"]
ORDER = f"the order is: {', '.join(SETTINGS)}, each once; columns, the header, rows with their cells; bytes, pad; cut"
WIDTHS = (
    "Absolute, LowerBoundary and UpperBoundary use one width, Boundaries two, the others none; "
    "a width is fixed (12) or percent (50%)"
)
# A setting that is left out. Without a target Dynamic is the same as Disabled.
DEFAULTS = {
    "edition": b"\1",
    "arrangement": b"\1",
    "target": b"\0\0",
    "delimiter": b"\0",
    "indicator": b"\3...",
    "padding": b"\0\0",
}
DEFAULT_STYLE = "house"

USAGE = {
    "edition": "edition 1",
    "arrangement": f"arrangement NAME, one of {', '.join(fields.ARRANGEMENTS)}",
    "target": "target none, or target WIDTH, 1 to 400",
    "delimiter": 'delimiter none, or delimiter with one character in quotes, such as "/"',
    "indicator": 'indicator with a text of up to 8 characters, such as "..."',
    "style": f"style NAME, one of {', '.join(styles.DRAWN)}",
    **{
        name: f"{name} unset, or {name} with {len(parts)} characters in quotes: {', '.join(parts)}, an unset one as \\0"
        for name, (_, parts) in styles.LINES.items()
    },
    "padding": "padding LEFT RIGHT, each 0 to 20, for every column that gives none",
    "column": "column [padding LEFT RIGHT] [delimiter D] [alignment A] [constraint C [WIDTH [WIDTH]]], in this order",
    "header": 'header [height N] ["cell" ..]',
    "row": 'row [height N] ["cell" ..]',
    "cell": 'cell [delimiter D] [alignment A] "line" .., in this order',
    "bytes": "bytes 01 FF .., each of two hexadecimal digits",
    "pad": "pad COUNT BYTE, such as pad 100 0",
    "cut": "cut LENGTH, less than the sheet has",
    "raw": "raw, alone and first; then only bytes, pad and cut",
}
OPTIONS = {
    "column": ["padding", "delimiter", "alignment", "constraint"],
    "header": ["height"],
    "row": ["height"],
    "cell": ["delimiter", "alignment"],
}

# A sheet, each byte's place in the text form (None if nobody wrote it), and the place that ends the sheet.
Made = namedtuple("Made", "sheet places end")
Record = namedtuple("Record", "at bytes")
Row = namedtuple("Row", "at height cells")


def counted(records, what, most, at=None):
    """Records after their count, of which the printer takes `most`. A count's place is that of the last record."""
    if len(records) > 255:
        raise Wrong(f"{len(records)} {what}s", beyond_a_byte(most), records[255].at)
    place = records[-1].at._replace(note="the last one counted") if records else at
    return spread([len(records)], place) + [pair for record in records for pair in record.bytes]


def width(line):
    """A width: 10 is fixed, 10% percent; `unit 2 10` writes an unknown unit."""
    if line.option("unit"):
        return line.number("unit", "0 fixed, 1 percent") + line.number("width", "0 to 400", 2)
    percent = line.left() and line.words[0].text is None and line.words[0].written.endswith("%")
    if percent:
        line.words[0] = line.words[0]._replace(written=line.words[0].written[:-1])
    value = line.number("width", WIDTHS, 2)
    return spread([percent], value[0][1]) + value


def constraint(line):
    """A constraint by its name wants the widths that it uses; `unit` and a code take what is given."""
    if not line.option("constraint"):
        return spread(bytes(7), line.at)
    name = line.words[0] if line.left() else None
    code = line.code("constraint", fields.CONSTRAINTS)
    uses = fields.CONSTRAINTS.get(name.written)
    widths = []
    while line.before_options() and len(widths) < 2:
        if uses is not None and len(widths) >= uses and line.words[0].written != "unit":
            raise line.wrong(f"{name.written} doesn't use {line.words[0].written}", line.words[0], WIDTHS)
        widths.append(width(line))
    if uses is not None and len(widths) < uses:
        message = f"{name.written} wants {uses} width{'s' * (uses > 1)}, not {len(widths)}"
        raise line.wrong(message, line.words[0] if line.left() else None, WIDTHS)
    widths += [spread(bytes(3), name.at)] * (2 - len(widths))
    return code + widths[0] + widths[1]


def delimiter_and_alignment(line):
    delimiter = line.delimiter() if line.option("delimiter") else spread([0], line.at)
    alignment = line.code("alignment", fields.ALIGNMENTS) if line.option("alignment") else spread([0], line.at)
    return delimiter + alignment


class Form:
    """A text form as it is read: settings, columns, header, rows, and damage: bytes put after them, a cut."""

    def __init__(self):
        self.settings = {name: spread(value, None) for name, value in DEFAULTS.items()}
        self.load_style(DEFAULT_STYLE, None)
        self.columns, self.header, self.rows, self.after = [], [], [], []
        self.cut_at = self.length = self.raw_at = None
        self.rank, self.last = -1, None

    def line(self, line):
        word = line.take("a word")
        name = word.written
        if name not in USAGE:
            raise Wrong(f"unknown word {name}", f"a line starts with one of {', '.join(USAGE)}", word.at)
        line.usage, line.options = USAGE[name], OPTIONS.get(name, [])
        self.in_order(name, word)
        if name in SETTINGS:
            self.read_setting(name, line)
        else:
            getattr(self, "read_" + name)(line)
        line.end()
        self.last = name

    def in_order(self, name, word):
        """Each word has a rank; the next one is never lower, and higher if it stands once."""
        if name == "cell":
            if self.last not in ("header", "row", "cell"):
                raise Wrong("a cell without a row", "cells stand below the header or row that they belong to", word.at)
            return
        if name == "raw" and self.last or self.raw_at and RANKS[name] < RANKS["bytes"]:
            raise Wrong(f"{name} can't stand here", USAGE["raw"], word.at)
        if RANKS[name] < self.rank:
            raise Wrong(f"{name} can't stand after {self.last}", ORDER, word.at)
        if RANKS[name] == self.rank and name not in REPEATED:
            raise Wrong(f"{name} is given twice", ORDER, word.at)
        self.rank = RANKS[name]

    def load_style(self, name, at):
        self.settings.update((line, spread(characters, at)) for line, characters in styles.lines(name).items())

    def read_setting(self, name, line):
        if name == "style":
            word = line.name("style", styles.DRAWN)
            self.load_style(word.written, word.at)
        elif name in styles.LINES:
            self.settings[name] = self.style_line(line, name, len(styles.LINES[name][1]))
        else:
            self.settings[name] = {
                "edition": lambda: line.number(name, "1"),
                "arrangement": lambda: line.code(name, fields.ARRANGEMENTS),
                "target": lambda: line.number_or_none(name, "none, or 1 to 400", 2),
                "delimiter": line.delimiter,
                "indicator": lambda: line.counted(name, line.ascii_text(name), 8),
                "padding": lambda: self.padding(line),
            }[name]()

    @staticmethod
    def style_line(line, name, count):
        unset = line.option("unset")
        if unset:
            return spread(bytes(count), unset.at)
        word = line.ascii_text(name)
        if len(word.text) != count:
            raise line.wrong(f"{name}: {word.written} has {len(word.text)} characters", word)
        return word.text

    @staticmethod
    def padding(line):
        return line.number("left padding", fields.PADDING) + line.number("right padding", fields.PADDING)

    def read_column(self, line):
        padding = self.padding(line) if line.option("padding") else self.settings["padding"]
        self.columns.append(Record(line.at, padding + delimiter_and_alignment(line) + constraint(line)))

    def read_header(self, line):
        self.header.append(self.row(line))

    def read_row(self, line):
        self.rows.append(self.row(line))

    @staticmethod
    def row(line):
        """A row; texts in its own line are cells of one line each."""
        height = line.number_or_none("height", "none, or 1 to 255") if line.option("height") else spread([0], line.at)
        cells = []
        while line.before_options():
            at = line.words[0].at
            cells.append(Record(at, spread(b"\0\0\1", at) + line.cell_text("a cell")))
        return Row(line.at, height, cells)

    def read_cell(self, line):
        start, lines = delimiter_and_alignment(line), []
        while line.before_options():
            lines.append(Record(line.words[0].at, line.cell_text("a cell's line")))
        cells = (self.rows or self.header)[-1].cells
        cells.append(Record(line.at, start + counted(lines, "line", 8, line.at)))

    def read_bytes(self, line):
        word = line.take("a byte")
        while word:
            if word.text is not None or not re.fullmatch("([0-9A-Fa-f]{2})+", word.written):
                raise line.wrong(f"{word.written} isn't made of bytes", word)
            self.after += spread(bytes.fromhex(word.written), word.at)
            word = line.take("a byte") if line.left() else None

    def read_pad(self, line):
        count = bytes(byte for byte, _ in line.number("count", "0 to 65535", 2))
        self.after += line.number("byte", "0 to 255") * int.from_bytes(count, "little")

    def read_cut(self, line):
        value = line.number("length", USAGE["cut"], 2)
        self.cut_at, self.length = value[0][1], int.from_bytes(bytes(byte for byte, _ in value), "little")

    def read_raw(self, line):
        self.raw_at = line.at

    @staticmethod
    def rows_counted(rows, what, most):
        records = [Record(row.at, row.height + counted(row.cells, "cell", 12, row.at)) for row in rows]
        return counted(records, what, most)

    def body(self):
        longest = max((row.cells for row in self.header + self.rows), key=len, default=[])
        plain = self.settings["padding"] + spread(bytes(9), None)
        columns = self.columns or [Record(cell.at, plain) for cell in longest]
        parts = [self.settings[name] for name in CONTENT] + [spread([styles.SIZE], None)]
        parts += [self.settings[name] for name in styles.LINES]
        parts += [counted(columns, "column", 12)]
        parts += [self.rows_counted(self.header, "header", 1), self.rows_counted(self.rows, "row", 100)]
        return [pair for part in parts for pair in part]

    def made(self):
        pairs = ([] if self.raw_at else self.body()) + self.after
        end = pairs[-1][1] if pairs else self.raw_at
        if self.cut_at:
            if self.length >= len(pairs):
                raise Wrong(f"cut {self.length} cuts nothing", f"the sheet has {len(pairs)} bytes", self.cut_at)
            pairs, end = pairs[: self.length], self.cut_at
        return Made(bytes(byte for byte, _ in pairs), [place for _, place in pairs], end)


def read(text):
    """The sheet that a text form's bytes make."""
    form = Form()
    for line in words.lines(text):
        form.line(line)
    return form.made()
