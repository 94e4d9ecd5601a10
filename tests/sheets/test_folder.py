"""The stored sheets: what is missing, out of date or left over is named, and nothing stale stays behind."""

import os

from desk import ROOT, DeskTest

ANSWER = """#!/bin/sh
cat >/dev/null
printf 'another answer'
"""


class Folder(DeskTest):
    def setUp(self):
        super().setUp()
        self.root = self.tree()

    def path(self, name):
        return self.root / "sheets" / name

    def said(self, *words):
        done = self.sheets(*words, root=self.root)
        return done.returncode, (done.stdout.decode("ascii") + done.said).splitlines()

    def program(self, text):
        path = self.file(text, "program")
        path.chmod(0o755)
        return path

    def test_check(self):
        count = len(list(self.path("").glob("*.txt")))
        self.assertEqual(self.said("check"), (0, [f"{count} text forms, {count - 2} stored sheets, 0 wrong"]))
        self.path("desk.page").unlink()
        self.path("house.sheet").unlink()
        self.path("bare.sheet").write_bytes(b"\1")
        self.path("cut.txt").unlink()
        names = ["bare.sheet is out of date", "cut.page is left over", "cut.sheet is left over", "desk.page is missing",
                 "house.sheet is missing"]
        lines = [f"sheets/{name}" for name in names] + [f"{count - 1} text forms, {count - 3} stored sheets, 5 wrong"]
        self.assertEqual(self.said("check"), (1, lines))

    def test_build_makes_what_is_missing(self):
        self.path("house.sheet").unlink()
        self.path("bare.sheet").write_bytes(b"\1")
        self.assertEqual(self.said("build"), (0, []))
        for name in ["house.sheet", "bare.sheet"]:
            self.assertEqual(self.path(name).read_bytes(), (ROOT / "sheets" / name).read_bytes())
        self.assertFalse(self.path("refused-2.sheet").exists())

    def test_missing_page_is_named(self):
        self.path("desk.page").unlink()
        expected = (1, ["sheets/desk.page is missing", "(`tools/sheets pages COMMAND` writes the pages)"])
        self.assertEqual(self.said("replay", "cat"), expected)
        self.assertEqual(self.said("all", self.folder / "all"), expected)
        self.assertFalse((self.folder / "all").exists())
        self.assertIn("sheets/desk.page is missing", self.said("check")[1])

    def test_c_run_names_a_missing_page_and_leaves_nothing_stale(self):
        stale = self.root / "target/c/sheets/gone.sheet"
        stale.parent.mkdir(parents=True)
        stale.write_bytes(b"")
        self.path("desk.page").unlink()
        archive = ROOT / "target/staticlib/libgateway.a"
        done = self.run_in(self.root, "tests/c/run", archive)
        self.assertEqual(done.returncode, 1)
        self.assertIn("sheets/desk.page is missing\n", done.said)
        self.assertFalse(stale.exists())

    def test_all(self):
        self.assertEqual(self.said("all", self.folder / "all"), (0, []))
        names = sorted(path.stem for path in self.path("").glob("*.txt"))
        expected = [name + suffix for name in names for suffix in [".page", ".sheet"]]
        expected += [name + ".reasons" for name in names if name.startswith("reason-")]
        self.assertEqual(sorted(os.listdir(self.folder / "all")), sorted(expected))
        report = "reason-part.reasons"
        self.assertEqual((self.folder / "all" / report).read_bytes(), self.path(report).read_bytes())
        self.assertEqual((self.folder / "all/refused-2.sheet").read_bytes(), bytes(32769))

    def test_replay(self):
        for name in os.listdir(self.path("")):
            if name.endswith(".txt") and name not in ("desk.txt", "bare.txt"):
                self.path(name).unlink()
        program = self.program(ANSWER)
        self.path("bare.page").write_bytes(b"another answer")
        expected = (1, ["sheets/desk.page: another answer", "2 sheets replayed, 1 differ"])
        self.assertEqual(self.said("replay", program), expected)
        self.assertEqual(self.said("pages", program), (0, []))
        self.assertEqual(self.path("desk.page").read_bytes(), b"another answer")
        self.assertEqual(self.said("replay", program), (0, ["2 sheets replayed, 0 differ"]))

    def test_commands_that_fail(self):
        self.assertEqual(self.said("replay", "./nothing"), (1, ["./nothing can't be run: No such file or directory"]))
        program = self.program("#!/bin/sh\ncat >/dev/null\nexit 7\n")
        said = f"{program} ended with status 7 on the sheet of sheets/alignments.txt"
        self.assertEqual(self.said("replay", program), (1, [said]))
        before = self.path("alignments.page").read_bytes()
        self.assertEqual(self.said("pages", program), (1, [said]))
        self.assertEqual(self.path("alignments.page").read_bytes(), before)
