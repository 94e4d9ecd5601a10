"""A sheet as a text form that makes the same bytes."""

from . import fields, form, styles
from .words import SIGN, Wrong


def shown(byte):
    if byte in b'"\\':
        return "\\" + chr(byte)
    return chr(byte) if 0x20 <= byte <= 0x7E else "\\0" if byte == 0 else f"\\x{byte:02X}"


def quoted(characters):
    return '"' + "".join(map(shown, characters)) + '"'


def cell_text(line):
    """A cell's line, where a degree sign is written as such; half of one is a byte."""
    return '"' + SIGN.join("".join(map(shown, part)) for part in line.split(SIGN.encode())) + '"'


def code(value, names):
    names = list(names)
    return names[value] if value < len(names) else str(value)


def delimiter(value):
    return quoted([value]) if value else "none"


def options(record):
    """The delimiter and alignment of a column or cell, where it has any."""
    if record.delimiter:
        yield f"delimiter {delimiter(record.delimiter)}"
    if record.alignment:
        yield f"alignment {code(record.alignment, fields.ALIGNMENTS)}"


def width(given, used):
    if not used or given.unit > 1:
        return f"unit {given.unit} {given.value}"
    return f"{given.value}{'%' * given.unit}"


def constraint(column):
    uses = fields.used_widths(column.constraint)
    count = max([uses] + [at for at, given in enumerate(column.widths, 1) if any(given)])
    if not column.constraint and not count:
        return []
    widths = [width(given, at < uses) for at, given in enumerate(column.widths[:count])]
    return ["constraint", code(column.constraint, fields.CONSTRAINTS), *widths]


def style(characters):
    name = styles.named(characters)
    if name:
        return [f"style {name}"]
    lines, at = [], 0
    for line, (_, parts) in styles.LINES.items():
        drawn = characters[at : at + len(parts)]
        lines.append(f"{line} {quoted(drawn) if any(drawn) else 'unset'}")
        at += len(parts)
    return lines


def row(name, held):
    yield f"{name} height {held.height}" if held.height else name
    for cell in held.cells:
        yield " ".join(["  cell", *options(cell), *map(cell_text, cell.lines)])


def table(held):
    yield f"edition {held.edition}"
    yield f"arrangement {code(held.arrangement, fields.ARRANGEMENTS)}"
    yield f"target {held.target or 'none'}"
    yield f"delimiter {delimiter(held.delimiter)}"
    yield f"indicator {quoted(held.indicator)}"
    yield from style(held.style)
    for column in held.columns:
        yield " ".join([f"column padding {column.left} {column.right}", *options(column), *constraint(column)])
    for header in held.header:
        yield from row("header", header)
    for each in held.rows:
        yield from row("row", each)


def bytes_lines(sheet):
    return ["bytes " + " ".join(f"{byte:02X}" for byte in sheet[at : at + 16]) for at in range(0, len(sheet), 16)]


def makes(lines, sheet):
    try:
        return form.read("\n".join(lines).encode()).sheet == sheet
    except Wrong:
        return False


def text(sheet):
    """By fields where these make the same bytes, which every accepted sheet's do; else by bytes alone."""
    held, end = fields.read(sheet)
    lines = [*table(held), *bytes_lines(sheet[end:]), *[f"cut {len(sheet)}"] * (end > len(sheet))]
    if not makes(lines, sheet):
        lines = ["raw", *bytes_lines(sheet)]
    return "\n".join(lines) + "\n"
