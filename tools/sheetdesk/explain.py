"""What the library answers about a sheet, in words."""

from . import fields
from .words import SIGN

NUMBERS = {
    1: "the sheet ends before this field is whole",
    2: "the sheet is over 32,768 bytes",
    3: "the edition is not 1",
    4: "unknown code",
    5: "a count, length or value is beyond its limits",
    6: "a byte is neither printable nor an allowed 0",
    7: "more cells than columns",
    8: "a byte of an unused width is not 0",
    9: "there are bytes after the last row",
}


def hexadecimal(byte):
    return f"{byte:02X} hexadecimal" + (f", the character {chr(byte)}" if 0x20 <= byte <= 0x7E else "")


def character(there, kind):
    """A character's bytes; of a degree sign's, what is wrong with them."""
    first, second = SIGN.encode()
    if len(there) == 2:
        return f"{there[0]:02X} {there[1]:02X} hexadecimal" + ", C2 without B0 after it" * (there[1] != second)
    if there[0] not in (first, second):
        return hexadecimal(there[0])
    half = "the first byte" if there[0] == first else "the second byte"
    where = "alone" if kind == "cell text" else "which only the text of a cell may hold"
    return f"{hexadecimal(there[0])}, {half} of a degree sign, {where}"


def value(sheet, field):
    there = sheet[field.start : field.start + field.size]
    if len(there) < field.size:
        return f"missing: the sheet's {len(sheet)} bytes end {'within it' if there else 'before it'}"
    return str(int.from_bytes(there, "little")) if field.kind == "number" else character(there, field.kind)


def described(sheet, number, place):
    """The field's name, its value and its limits."""
    if number == 2:
        return "the whole sheet, length", f"{len(sheet):,} bytes", "at most 32,768 bytes"
    field = fields.field_at(sheet, place)
    if field is None:
        return "after the last row", hexadecimal(sheet[place]), "nothing follows the last row"
    return field.name, value(sheet, field), field.limits


def written(name, made, place):
    """Where a text form's byte was written."""
    at = made.places[place] if place < len(made.places) else made.end._replace(note="the sheet ends here")
    if at is None:
        return "nowhere in the text form: it was left out"
    return f"{name}, line {at.line}, column {at.column}" + (f" ({at.note})" if at.note else "")


def refusal(name, made, number, place):
    field, what, limits = described(made.sheet, number, place)
    yield f"refused {number} at {place}: {NUMBERS.get(number, 'unknown number')}"
    yield f"  field    {field}"
    yield f"  value    {what}"
    yield f"  limits   {limits}"
    if made.places is not None:
        yield f"  written  {written(name, made, place)}"


def many(count, what):
    return f"{count:,} {what}{'' if count == 1 else 's'}"


def accepted(library, sheet):
    counted, measured = library.count(sheet), library.widths(sheet)
    table, _ = fields.read(sheet)
    header = "a header" if table.header else "no header"
    counts = [many(len(sheet), "byte"), many(measured.columns, "column"), header, many(len(table.rows), "row")]
    yield f"accepted: {', '.join(counts)}"
    yield f"  page      {many(counted.lines, 'line')}, {many(counted.bytes, 'byte')}"
    for at, column in enumerate(table.columns):
        width = f"{'hidden, ' * measured.hidden[at]}content width {measured.content[at]}"
        yield f"  column {at + 1:<2} {width}, padding {column.left} and {column.right}"


def explain(library, name, made):
    """A sheet, or the refusal of one, in lines for people."""
    answer = library.check(made.sheet)
    if answer.number:
        return list(refusal(name, made, answer.number, answer.place))
    return list(accepted(library, made.sheet))
