"""The style's six lines, and the styles that have a name."""

# Each line's name in a text form, its name in messages, and its characters, in the sheet's order.
LINES = {
    "top": ("top border", ["left", "fill", "junction", "right"]),
    "header-lines": ("header lines", ["left", "junction", "right"]),
    "header-rule": ("header rule", ["left", "fill", "junction", "right"]),
    "content-lines": ("content lines", ["left", "junction", "right"]),
    "row-rule": ("row rule", ["left", "fill", "junction", "right"]),
    "bottom": ("bottom border", ["left", "fill", "junction", "right"]),
}
SIZE = sum(len(parts) for _, parts in LINES.values())

# The lines one after another; a space is an unset character. sheets/README.md says where the presets come from.
DRAWN = {
    "house": ["+-++", "|||", "+=++", "|||", "+-++", "+-++"],
    "bare": ["    ", "   ", "    ", "   ", "    ", "    "],
    "ASCII_FULL": ["+-++", "|||", "+==+", "|||", "|-+|", "+-++"],
    "ASCII_FULL_CONDENSED": ["+-++", "|||", "+==+", "|||", "    ", "+-++"],
    "ASCII_NO_BORDERS": ["    ", " | ", " == ", " | ", " -+ ", "    "],
    "ASCII_BORDERS_ONLY": ["+--+", "| |", "+==+", "| |", "|  |", "+--+"],
    "ASCII_BORDERS_ONLY_CONDENSED": ["+--+", "| |", "+==+", "| |", "    ", "+--+"],
    "ASCII_HORIZONTAL_ONLY": [" -- ", "   ", " == ", "   ", " -- ", " -- "],
    "ASCII_MARKDOWN": ["    ", "|||", "|-||", "|||", "    ", "    "],
    "NOTHING": ["    ", "   ", "    ", "   ", "    ", "    "],
}


def lines(name):
    """A named style's six lines, by their names, as the sheet's bytes."""
    return {line: drawn.replace(" ", "\0").encode("ascii") for line, drawn in zip(LINES, DRAWN[name])}


def named(characters):
    """The first style that has these characters, or None."""
    return next((name for name in DRAWN if b"".join(lines(name).values()) == characters), None)
