"""The library's report on an accepted sheet, in words: why each column is as wide as it is, and how the page fits."""

from . import fields
from .explain import many

# By number: document 02's name of the step, and what it means to whoever set the table up.
STEPS = {
    1: "first constraint step: its constraint gives the width, whatever room there is",
    2: "lower bound: it is above the average room",
    3: "upper bound: the average room and the longest line both reach it",
    4: "longest within average: its longest line fits into the average room",
    5: "split part: the longest part of its lines, split at the average room",
    6: "even share: of the room that the other columns leave",
    7: "untargeted longest: its longest line, with no target or Disabled",
    8: "untargeted upper bound: it is below the longest line, with no target or Disabled",
}


def column(measured, reasoned, at):
    if measured.hidden[at]:
        return "hidden"
    widened = "widened to fill the target" if reasoned.widened[at] else "not widened"
    step = STEPS.get(reasoned.step[at], f"unknown step {reasoned.step[at]}")
    return f"content width {measured.content[at]}, {widened}; {step}"


def fit(difference):
    if difference > 0:
        return f"leaves {many(difference, 'column')} to spare"
    return f"overruns it by {many(-difference, 'column')}" if difference else "ends on it"


def report(library, sheet):
    """The bytes of a line for each column and one for the target."""
    measured, reasoned = library.widths(sheet), library.reasons(sheet)
    lines = [f"column {at + 1:<2}  {column(measured, reasoned, at)}" for at in range(reasoned.columns)]
    table, _ = fields.read(sheet)
    target = f"{table.target}, the longest line {fit(reasoned.difference)}" if reasoned.has_difference else "none"
    lines.append(f"target     {target}")
    return "".join(line + "\n" for line in lines).encode("ascii")
