"""The words of a text form, each with the place where it is written, and the bytes that they stand for.

Bytes are lists of pairs, a byte and its place, so that each byte of a sheet leads back to the text form.
"""

import re
from collections import namedtuple

ESCAPES = r'\" \\ \0 and \xHH (two hexadecimal digits)'
ESCAPE = re.compile(r'\\(?:x([0-9A-Fa-f]{2})|(["\\0]))')
PLAIN = re.compile(r'[^\s"#]+')
SPACE = re.compile(r"\s*")

# The degree sign, two bytes of cell text; the only character beyond ASCII that a text form may hold.
SIGN = "\xb0"
KNOWN = re.compile(b"(?:[\0-\x7f]|%s)*" % SIGN.encode())

# A line and a column, both counted from 1; the note says more where the byte isn't written there itself.
Place = namedtuple("Place", "line column note", defaults=[""])
# `text` holds the bytes of a quoted text and is None for a plain word.
Word = namedtuple("Word", "written text at")


class Wrong(Exception):
    """What is wrong in a text form, what would be right, and the place."""

    def __init__(self, message, right, at):
        super().__init__(message)
        self.message, self.right, self.at = message, right, at


def is_number(word):
    return word.text is None and re.fullmatch("[0-9]+", word.written)


def beyond_a_byte(most):
    return f"at most {most}; a count or length is a byte, so that over 255 can't be written at all"


def spread(value, at):
    return [(byte, at) for byte in value]


def quoted(line, number, start):
    """The text that opens at `start`, and the position after it."""
    text, at = [], start + 1
    while at < len(line) and line[at] != '"':
        place = Place(number, at + 1)
        if line[at] != "\\":
            text += spread(line[at].encode(), place)
            at += 1
            continue
        escape = ESCAPE.match(line, at)
        if not escape:
            raise Wrong(f"unknown escape {line[at:at + 2]}", f"in a text {ESCAPES} stand for one byte each", place)
        byte = int(escape[1], 16) if escape[1] else 0 if escape[2] == "0" else ord(escape[2])
        text.append((byte, place))
        at = escape.end()
    if at == len(line):
        raise Wrong("a text isn't closed", 'a text ends with " in the same line', Place(number, start + 1))
    return Word(line[start : at + 1], text, Place(number, start + 1)), at + 1


def split(line, number):
    """The words of a line; a comment ends it."""
    found, at = [], SPACE.match(line).end()
    while at < len(line) and line[at] != "#":
        if line[at] == '"':
            word, end = quoted(line, number, at)
        else:
            end = PLAIN.match(line, at).end()
            word = Word(line[at:end], None, Place(number, at + 1))
        found.append(word)
        at = SPACE.match(line, end).end()
        if at == end < len(line) and line[at] != "#":
            right = r'words and texts are separated by spaces, and " within a text is written \"'
            raise Wrong("a space is missing", right, Place(number, at + 1))
    return found


def lines(form):
    """Each line of a text form that has words, as a Line."""
    for number, line in enumerate(form.split(b"\n"), 1):
        odd = KNOWN.match(line).end()
        if odd < len(line):
            right = "a text form is ASCII and the degree sign, as UTF-8 writes it (C2 B0), comments too"
            place = Place(number, len(line[:odd].decode()) + 1)
            raise Wrong(f"byte {line[odd]:02X} (hexadecimal) isn't ASCII", right, place)
        line = line.decode().rstrip()
        words = split(line, number)
        if words:
            yield Line(words, Place(number, len(line) + 1))


class Line:
    """The words of one line, taken from the left. `usage` is what the line should look like, `options` its options."""

    def __init__(self, words, end):
        self.words, self.place_after, self.usage, self.options = words, end, "", []
        self.at = words[0].at

    def wrong(self, message, word=None, right=None):
        return Wrong(message, right or self.usage, word.at if word else self.place_after)

    def left(self):
        return bool(self.words)

    def before_options(self):
        """Whether a word is left that is none of the line's options."""
        return self.left() and self.words[0].written not in self.options

    def take(self, what):
        if not self.words:
            raise self.wrong(f"{what} is missing")
        return self.words.pop(0)

    def option(self, name):
        """The next word if it is this name; it is then taken."""
        if self.words and self.words[0].text is None and self.words[0].written == name:
            return self.words.pop(0)
        return None

    def end(self):
        if self.left():
            what = "isn't known here" if self.before_options() else "is given twice or in another order"
            raise self.wrong(f"{self.words[0].written} {what}", self.words[0])

    def number(self, what, limits, size=1):
        word = self.take(what)
        if not is_number(word):
            raise self.wrong(f"{what}: {word.written} is no number", word, limits)
        if len(word.written) > 9 or int(word.written) >= 256**size:
            raise self.wrong(f"{what}: {word.written} is above {256**size - 1}, which no sheet can hold", word, limits)
        return spread(int(word.written).to_bytes(size, "little"), word.at)

    def number_or_none(self, what, limits, size=1):
        none = self.option("none")
        return spread(bytes(size), none.at) if none else self.number(what, limits, size)

    def name(self, what, names):
        word = self.take(what)
        if word.text is not None or word.written not in names:
            raise self.wrong(f"{what}: {word.written} isn't known", word, ", ".join(names))
        return word

    def code(self, what, names):
        """A code by its name; by its number, to write one that is unknown."""
        if self.words and is_number(self.words[0]):
            return self.number(what, f"{', '.join(names)}, or a code of one byte")
        word = self.name(what, list(names))
        return spread([list(names).index(word.written)], word.at)

    def text(self, what):
        """A quoted text as a word."""
        word = self.take(what)
        if word.text is None:
            raise self.wrong(f"{what}: {word.written} is no text in quotes", word)
        return word

    def ascii_text(self, what):
        """A quoted text of which each byte is a character."""
        word = self.text(what)
        if SIGN in word.written:
            at = word.at._replace(column=word.at.column + word.written.index(SIGN))
            raise Wrong(f"{what}: {SIGN} isn't ASCII", "the degree sign stands in the texts of cells only", at)
        return word

    def counted(self, what, word, most):
        """A text after its length, of which the printer takes `most`."""
        if len(word.text) > 255:
            raise self.wrong(f"{what} has {len(word.text)} bytes", word, beyond_a_byte(most))
        return spread([len(word.text)], word.at) + word.text

    def cell_text(self, what):
        return self.counted(what, self.text(what), 200)

    def delimiter(self):
        none = self.option("none")
        if none:
            return spread([0], none.at)
        word = self.ascii_text("delimiter")
        if len(word.text) != 1:
            right = 'exactly one character in quotes, such as "/", or none'
            raise self.wrong(f"delimiter: {word.written} has {len(word.text)} characters", word, right)
        return word.text
