"""The trial desk: tables written as text forms, their sheets, and the pages or refusals that the printer answers.

For one file:
  sheets make FILE.txt > FILE.sheet   the sheet that a text form stands for
  sheets text FILE.sheet              a sheet as a text form, which makes the same bytes again
  sheets print FILE                   the page; or the refusal explained, on standard error
  sheets explain FILE                 a refusal in words: field, value, limits and, for a text form, where it was
                                      written; for an accepted sheet its counts and widths
  sheets reasons FILE                 what set each column's width, and how the page fits the target; or the refusal
                                      explained, on standard error

For the stored trial sheets in sheets/:
  sheets build            writes sheets/NAME.sheet for each sheets/NAME.txt
  sheets check            says which of these files are missing, out of date or left over
  sheets all DIRECTORY    writes every sheet, page and report there, long sheets too
  sheets pages COMMAND    runs COMMAND on each sheet and writes what it prints as sheets/NAME.page
  sheets replay COMMAND   runs COMMAND on each sheet and compares what it prints with sheets/NAME.page
  sheets rewrite          has the library write each accepted sheet anew from its table, and compares
  sheets reports          writes what `sheets reasons` says of each sheet whose name begins with reason- as
                          sheets/NAME.reasons
  sheets review           compares what it says of these with sheets/NAME.reasons

print, explain and reasons take a sheet or a text form: NAME.txt is a text form, NAME.sheet a sheet, and any other file
is a text form if its first byte is printable or white space. They, rewrite, reports and review ask the proved library,
which `tools/build gateway` writes, and need gcc to link it. Columns, rows, cells, lines and characters are counted
from 1; a place in a sheet, as in `refused 5 at 30`, is a byte counted from 0.

A sheet of over 4,096 bytes isn't stored; build and check leave it out. COMMAND reads a sheet on standard input and
writes the page, or `refused N at P`. sheets/README.md says what a text form is. Needs Python 3.8 or later.

Status 0: done. 1: the text form is wrong, the sheet is refused (print, reasons), or files are missing or differ. 2: bad
usage, or a file that can't be read or written. 3: the library isn't there.
"""

import sys
from pathlib import Path

from . import folder, form, text
from .explain import explain
from .library import Library, Missing
from .reasons import report
from .words import Wrong


def is_form(name, data):
    suffix = Path(name).suffix
    return suffix == ".txt" or suffix != ".sheet" and (data[:1].isspace() or b" " <= data[:1] <= b"~")


class Usage(Exception):
    """Words that are no command, or a file of the other kind."""


def load(name, wanted=None):
    """A sheet or a text form as what it makes; one of them if it is wanted."""
    data = Path(name).read_bytes()
    kind = "text form" if is_form(name, data) else "sheet"
    if wanted not in (None, kind):
        raise Usage(f"{name} is a {kind}, and a {wanted} is wanted")
    return form.read(data) if kind == "text form" else form.Made(data, None, None)


def say(words):
    """On standard error; print would take standard output if that is closed."""
    if sys.stderr:
        print(words, file=sys.stderr)


def write(data):
    sys.stdout.buffer.write(data)
    return True


def answered(name, answer):
    """Writes the answer for an accepted sheet; a refused one is explained."""
    made, library = load(name), Library()
    if library.check(made.sheet).number == 0:
        return write(answer(library, made.sheet))
    say("\n".join([f"{name}:", *explain(library, name, made)]))
    return False


def explain_file(name):
    made = load(name)
    lines = [f"{name}:", *explain(Library(), name, made)]
    return write("".join(line + "\n" for line in lines).encode("utf-8", "backslashreplace"))


COMMANDS = {
    "make": ("FILE.txt", lambda name: write(load(name, "text form").sheet)),
    "text": ("FILE.sheet", lambda name: write(text.text(load(name, "sheet").sheet).encode())),
    "print": ("FILE", lambda name: answered(name, Library.page)),
    "explain": ("FILE", explain_file),
    "reasons": ("FILE", lambda name: answered(name, report)),
    "build": ("", folder.build),
    "check": ("", folder.check),
    "all": ("DIRECTORY", lambda name: folder.write_all(Path(name))),
    "pages": ("COMMAND ..", lambda *command: folder.pages(command)),
    "replay": ("COMMAND ..", lambda *command: folder.replay(command)),
    "rewrite": ("", folder.rewrite),
    "reports": ("", folder.reports),
    "review": ("", folder.review),
}


def run(words):
    """True if all is well."""
    name, *rest = words or [""]
    if name == "--help" or rest[:1] == ["--help"]:
        return write(__doc__.encode("ascii"))
    if name not in COMMANDS:
        raise Usage(f"a command is wanted, one of {', '.join(COMMANDS)}")
    operands, call = COMMANDS[name]
    if not (rest if operands.endswith("..") else len(rest) == len(operands.split())):
        raise Usage(f"{name} takes {operands or 'no further word'}")
    return call(*rest)


def main(words):
    if not sys.stdout:
        say("standard output is closed")
        return 2
    try:
        done = run(words)
        sys.stdout.flush()
        return 0 if done else 1
    except Usage as usage:
        say(f"tools/sheets: {usage}; `tools/sheets --help` says more")
        return 2
    except Wrong as wrong:
        say(folder.complaint(words[1], wrong))
        return 1
    except folder.Failed as failed:
        say(failed)
        return 1
    except Missing as missing:
        say(missing)
        return 3
    except OSError as error:
        say(f"{error.filename or 'standard output'}: {error.strerror}")
        return 2
