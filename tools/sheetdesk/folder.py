"""The stored trial sheets: sheets/NAME.txt, NAME.sheet, NAME.page, NAME.reasons."""

import subprocess
from pathlib import Path

from . import fields, form
from .library import Library
from .reasons import report
from .words import Wrong

FOLDER = Path(__file__).resolve().parent.parent.parent / "sheets"
LONGEST_STORED = 4096
# A sheet of such a name has a report.
REPORTED = "reason-"


class Failed(Exception):
    """Something in the folder, or a command that is run on it, isn't as it should be."""


def complaint(name, wrong):
    """A wrong text form in words."""
    message = "".join(each if each.isprintable() else f"\\x{ord(each):02X}" for each in wrong.message)
    return f"{name}, line {wrong.at.line}, column {wrong.at.column}: {message}\n  right: {wrong.right}"


def forms():
    """Each text form's path and its sheet; all that are wrong are named."""
    made, complaints = [], []
    for path in sorted(FOLDER.glob("*.txt")):
        try:
            made.append((path, form.read(path.read_bytes()).sheet))
        except Wrong as wrong:
            complaints.append(complaint(f"sheets/{path.name}", wrong))
    if complaints:
        raise Failed("\n".join(complaints))
    return made


def stored(made):
    return {path.with_suffix(".sheet"): sheet for path, sheet in made if len(sheet) <= LONGEST_STORED}


def pages_of(made):
    return [path.with_suffix(".page") for path, _ in made]


def reported(made):
    """Each report's path and its sheet."""
    return {path.with_suffix(".reasons"): sheet for path, sheet in made if path.name.startswith(REPORTED)}


def build():
    for path, sheet in stored(forms()).items():
        path.write_bytes(sheet)
    return True


def check():
    made = forms()
    sheets = stored(made)
    wanted = {*sheets, *pages_of(made), *reported(made)}
    there = {*FOLDER.glob("*.sheet"), *FOLDER.glob("*.page"), *FOLDER.glob("*.reasons")}
    wrong = {path: "is missing" for path in wanted - there}
    wrong.update((path, "is left over") for path in there - wanted)
    wrong.update((path, "is out of date") for path in there & {*sheets} if path.read_bytes() != sheets[path])
    for path in sorted(wrong):
        print(f"sheets/{path.name} {wrong[path]}")
    print(f"{len(made)} text forms, {len(sheets)} stored sheets, {len(wrong)} wrong")
    return not wrong


def rewrite():
    """Each accepted sheet's table through the library's writer, into a buffer with a byte to spare."""
    library, accepted, differ = Library(), 0, []
    for path, sheet in forms():
        if library.check(sheet).number == 0:
            accepted += 1
            table, end = fields.read(sheet)
            if library.written(*fields.apart(table), end + 1) != ((0, 0, end), sheet + b"\xFF"):
                differ.append(path)
    for path in differ:
        print(f"sheets/{path.name}: another sheet")
    print(f"{accepted} accepted sheets written anew, {len(differ)} differ")
    return not differ


def need(paths, command, what):
    missing = [f"sheets/{path.name} is missing" for path in paths if not path.exists()]
    if missing:
        raise Failed("\n".join(missing) + f"\n(`tools/sheets {command}` writes the {what})")


def need_pages(made):
    need(pages_of(made), "pages COMMAND", "pages")


def need_reports(made):
    need(reported(made), "reports", "reports")


def write_all(directory):
    made = forms()
    need_pages(made)
    need_reports(made)
    directory.mkdir(parents=True, exist_ok=True)
    for path, sheet in made:
        (directory / path.with_suffix(".sheet").name).write_bytes(sheet)
    for path in [*pages_of(made), *reported(made)]:
        (directory / path.name).write_bytes(path.read_bytes())
    return True


def reports_anew(made):
    """Each report's path and what the library reports of its sheet."""
    library = Library()
    for path, sheet in reported(made).items():
        refusal = library.check(sheet)
        if refusal.number:
            raise Failed(f"sheets/{path.stem}.txt is refused {refusal.number} at {refusal.place}: it has no report")
        yield path, report(library, sheet)


def reports():
    for path, words in reports_anew(forms()):
        path.write_bytes(words)
    return True


def review():
    made = forms()
    need_reports(made)
    differ = [path for path, words in reports_anew(made) if words != path.read_bytes()]
    for path in differ:
        print(f"sheets/{path.name}: another report")
    print(f"{len(reported(made))} reports reviewed, {len(differ)} differ")
    return not differ


def answers(made, command):
    """Each page's path and what the command prints for its sheet."""
    for path, sheet in made:
        try:
            done = subprocess.run(command, input=sheet, stdout=subprocess.PIPE)
        except OSError as error:
            raise Failed(f"{command[0]} can't be run: {error.strerror}") from None
        if done.returncode:
            raise Failed(f"{command[0]} ended with status {done.returncode} on the sheet of sheets/{path.name}")
        yield path.with_suffix(".page"), done.stdout


def pages(command):
    for path, answer in answers(forms(), command):
        path.write_bytes(answer)
    return True


def replay(command):
    made = forms()
    need_pages(made)
    differ = [path for path, answer in answers(made, command) if answer != path.read_bytes()]
    for path in differ:
        print(f"sheets/{path.name}: another answer")
    print(f"{len(made)} sheets replayed, {len(differ)} differ")
    return not differ
