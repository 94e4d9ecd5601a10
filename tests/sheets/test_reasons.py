"""Reports: what set each column's width and how the page fits the target, in words; and the stored ones."""

import os
import subprocess

from desk import ROOT, DeskTest

from sheetdesk.library import Library

FIRST = "first constraint step: its constraint gives the width, whatever room there is"
LOWER = "lower bound: it is above the average room"
UPPER = "upper bound: the average room and the longest line both reach it"
LONGEST = "longest within average: its longest line fits into the average room"
PART = "split part: the longest part of its lines, split at the average room"
SHARE = "even share: of the room that the other columns leave"
FREE = "untargeted longest: its longest line, with no target or Disabled"
FREE_UPPER = "untargeted upper bound: it is below the longest line, with no target or Disabled"
DESK = ROOT / "sheets/desk.txt"

# Answers that no sheet gets, so that the tool can have them from the library alone.
OTHER_LIBRARY = """
#include "cagwoni.h"
cagwoni_checked cagwoni_check(const uint8_t *s, size_t n) { return (cagwoni_checked){CHECKED}; }
cagwoni_counted cagwoni_count(const uint8_t *s, size_t n) { return (cagwoni_counted){0}; }
cagwoni_measured cagwoni_widths(const uint8_t *s, size_t n) {
    return (cagwoni_measured){.columns = 10, .content = {1, 22, 333, 4, 5, 6, 7, 8, 9, 400}, .hidden = {[8] = true}};
}
cagwoni_printed cagwoni_print_page(const uint8_t *s, size_t n, uint8_t *p, size_t m) { return (cagwoni_printed){0}; }
"""
REASONS = """
cagwoni_reasoned cagwoni_reasons(const uint8_t *s, size_t n) {
    return (cagwoni_reasoned){
        .columns = 10, .step = {1, 2, 3, 4, 5, 6, 7, 8, 0, 9}, .widened = {[2] = true, [9] = true}, REASONED};
}
"""


def lines_of(done):
    return done.stdout.decode("ascii").splitlines()


class Reasons(DeskTest):
    def reported(self, form):
        done = self.sheets("reasons", self.file(form))
        self.assertEqual((done.said, done.returncode), ("", 0))
        return lines_of(done)

    def test_desk(self):
        self.assertEqual(self.reported(DESK.read_bytes()), [
            f"column 1   content width 2, not widened; {LONGEST}",
            f"column 2   content width 11, not widened; {SHARE}",
            "target     20, the longest line ends on it",
        ])
        report = self.sheets("reasons", DESK).stdout
        self.assertEqual(self.sheets("reasons", DESK.with_suffix(".sheet")).stdout, report)

    def test_the_target(self):
        form = 'arrangement Disabled\ntarget {}\nstyle bare\nrow "abc"'
        for target, said in [
            ("none", "none"),
            (1, "1, the longest line overruns it by 2 columns"),
            (2, "2, the longest line overruns it by 1 column"),
            (3, "3, the longest line ends on it"),
            (4, "4, the longest line leaves 1 column to spare"),
            (400, "400, the longest line leaves 397 columns to spare"),
        ]:
            lines = [f"column 1   content width 3, not widened; {FREE}", f"target     {said}"]
            self.assertEqual(self.reported(form.format(target)), lines)

    def test_no_column_and_hidden_ones(self):
        spare = "target     7, the longest line leaves 7 columns to spare"
        self.assertEqual(self.reported("target 7\nstyle bare"), [spare])
        self.assertEqual(self.reported("style bare"), ["target     none"])
        hidden = 11 * "column constraint Hidden\n" + "column constraint Absolute 3\n"
        lines = [f"column {at:<2}  hidden" for at in range(1, 12)]
        lines += [f"column 12  content width 3, not widened; {FIRST}", "target     none"]
        self.assertEqual(self.reported(hidden), lines)

    def test_degree_signs_are_one_column(self):
        lines = [f"column 1   content width 6, not widened; {LONGEST}", "target     6, the longest line ends on it"]
        self.assertEqual(self.reported('target 6\nstyle bare\nrow "21.5\xb0C"'), lines)

    def test_a_refusal_is_explained_as_print_does(self):
        for form in ["target 401", "raw", "raw\npad 32769 0", 'row "a"\nbytes 41']:
            for path in [self.file(form), self.file(self.made(form), "form.sheet")]:
                done = self.sheets("reasons", path)
                self.assertEqual((done.returncode, done.stdout), (1, b""))
                self.assertEqual(done.said, self.sheets("print", path).said)
                self.assertTrue(done.said.startswith(f"{path}:\nrefused "), done.said)

    def test_a_wrong_form(self):
        done = self.sheets("reasons", self.file("colum"))
        self.assertEqual((done.returncode, done.stdout), (1, b""))
        self.assertIn("unknown word colum", done.said)

    def test_the_call(self):
        reasons = Library().reasons
        got = reasons(DESK.with_suffix(".sheet").read_bytes())
        self.assertEqual((got.number, got.place, got.columns), (0, 0, 2))
        self.assertEqual((list(got.step), list(got.widened)), ([4, 6] + 10 * [0], 12 * [False]))
        self.assertEqual((got.has_difference, got.difference), (True, 0))
        got = reasons(b"\1\1\x91\1")
        self.assertEqual((got.number, got.place, got.columns, list(got.step)), (5, 2, 0, 12 * [0]))
        self.assertEqual((got.has_difference, got.difference), (False, 0))


class AnotherLibrary(DeskTest):
    def setUp(self):
        super().setUp()
        self.root, self.time = self.tree(), 0

    def library(self, source):
        """Puts another archive in the tree."""
        folder, objects = self.root / "target/staticlib", self.folder / "other.o"
        folder.mkdir(parents=True, exist_ok=True)
        path = self.file(source, "other.c")
        subprocess.run(["gcc", "-fPIC", "-I", self.root / "include", "-c", path, "-o", objects], check=True)
        subprocess.run(["ar", "rc", folder / "libgateway.a", objects], check=True)
        self.time += 1
        os.utime(folder / "libgateway.a", (self.time, self.time))

    def answer(self, reasoned, checked="0, 0"):
        self.library((OTHER_LIBRARY + REASONS).replace("REASONED", reasoned).replace("CHECKED", checked))

    def said(self, *words):
        done = self.sheets(*words, root=self.root)
        return done.returncode, lines_of(done) + done.said.splitlines()

    def keep(self, *names):
        """Leaves only these text forms in the tree."""
        for path in (self.root / "sheets").glob("*.txt"):
            if path.stem not in names:
                path.unlink()

    def test_answers_are_the_librarys(self):
        self.answer(".has_difference = true, .difference = -4812")
        self.assertEqual(self.said("reasons", DESK), (0, [
            f"column 1   content width 1, not widened; {FIRST}",
            f"column 2   content width 22, not widened; {LOWER}",
            f"column 3   content width 333, widened to fill the target; {UPPER}",
            f"column 4   content width 4, not widened; {LONGEST}",
            f"column 5   content width 5, not widened; {PART}",
            f"column 6   content width 6, not widened; {SHARE}",
            f"column 7   content width 7, not widened; {FREE}",
            f"column 8   content width 8, not widened; {FREE_UPPER}",
            "column 9   hidden",
            "column 10  content width 400, widened to fill the target; unknown step 9",
            "target     20, the longest line overruns it by 4,812 columns",
        ]))
        for reasoned, said in [
            (".has_difference = false, .difference = 0", "target     none"),
            (".has_difference = true, .difference = 9", "target     20, the longest line leaves 9 columns to spare"),
        ]:
            self.answer(reasoned)
            self.assertEqual(self.said("reasons", DESK)[1][-1], said)

    def test_an_archive_from_before_reports(self):
        self.library(OTHER_LIBRARY.replace("CHECKED", "0, 0"))
        said = "target/staticlib/libgateway.a is from before reports: run `tools/build gateway`"
        for words in [["reasons", DESK], ["reports"], ["review"]]:
            self.assertEqual(self.said(*words), (3, [said]))
        self.assertEqual(self.sheets("explain", DESK, root=self.root).returncode, 0)

    def test_no_library(self):
        for words in [["reasons", DESK], ["reports"], ["review"]]:
            done = self.sheets(*words, root=self.root)
            self.assertEqual((done.returncode, done.stdout), (3, b""))
            self.assertIn("no library at target/staticlib/libgateway.a", done.said)

    def test_reports_and_review(self):
        self.keep("desk", "reason-lower", "reason-part")
        self.answer(".has_difference = false")
        differ = [f"sheets/reason-{name}.reasons: another report" for name in ["lower", "part"]]
        self.assertEqual(self.said("review"), (1, [*differ, "2 reports reviewed, 2 differ"]))
        self.assertEqual(self.said("reports"), (0, []))
        self.assertFalse((self.root / "sheets/desk.reasons").exists())
        report = (self.root / "sheets/reason-part.reasons").read_bytes()
        self.assertEqual(report, self.sheets("reasons", DESK, root=self.root).stdout)
        self.assertEqual(self.said("review"), (0, ["2 reports reviewed, 0 differ"]))

    def test_a_refused_sheet_has_no_report(self):
        self.keep("reason-lower")
        self.answer(".number = 4, .place = 1", checked="4, 1")
        before = (self.root / "sheets/reason-lower.reasons").read_bytes()
        said = (1, ["sheets/reason-lower.txt is refused 4 at 1: it has no report"])
        self.assertEqual(self.said("review"), said)
        self.assertEqual(self.said("reports"), said)
        self.assertEqual((self.root / "sheets/reason-lower.reasons").read_bytes(), before)


class Stored(DeskTest):
    def test_review(self):
        count = len(list((ROOT / "sheets").glob("*.reasons")))
        done = self.sheets("review")
        self.assertEqual((lines_of(done), done.said), ([f"{count} reports reviewed, 0 differ"], ""))
        self.assertEqual(done.returncode, 0)

    def test_each_step_has_a_sheet(self):
        reports = b"".join(path.read_bytes() for path in (ROOT / "sheets").glob("*.reasons")).decode("ascii")
        for words in [FIRST, LOWER, UPPER, LONGEST, PART, SHARE, FREE, FREE_UPPER, "hidden", ", widened to fill",
                      "to spare", "ends on it", "overruns it by", "target     none"]:
            self.assertIn(words, reports)

    def test_what_is_missing_or_left_over(self):
        root = self.tree()
        path = root / "sheets/reason-part.reasons"
        path.rename(root / "sheets/desk.reasons")
        done = self.sheets("check", root=root)
        names = ["sheets/desk.reasons is left over", "sheets/reason-part.reasons is missing"]
        self.assertEqual((done.returncode, lines_of(done)[:-1]), (1, names))
        for words in [["review"], ["all", self.folder / "all"]]:
            done = self.sheets(*words, root=root)
            said = "sheets/reason-part.reasons is missing\n(`tools/sheets reports` writes the reports)\n"
            self.assertEqual((done.returncode, done.stdout, done.said), (1, b"", said))
        self.assertFalse((self.folder / "all").exists())
