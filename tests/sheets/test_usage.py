"""What every tool and script says of itself."""

import os
import subprocess
import sys

from desk import ROOT, DeskTest

OLD_PYTHON = "import sys; sys.version_info = (3, 7, 16); exec(open('tools/sheets').read())"
# Tries to install with a command that looks whether it was said before.
INSTALLS = """
source tools/differential/comfy-table.sh
registry=$1/none
apt-get() { grep -q 'installing the packages librust-unicode-width-dev' "$folder/said" && echo "$1" >>"$folder/seen"; }
folder=$1
fetch_packages 2>"$folder/said"
"""


def scripts():
    """Every program file of the repository."""
    for folder, names, files in os.walk(ROOT):
        names[:] = [name for name in names if name not in (".git", "target", "out")]
        for name in files:
            path = os.path.join(folder, name)
            if os.access(path, os.X_OK):
                yield os.path.relpath(path, ROOT)


class Usage(DeskTest):
    def test_scripts_are_found(self):
        known = {".ci/run", "bench/run", "tests/c/run", "tests/sheets/run", "tools/build", "tools/differential/run", "tools/must-fail-report", "tools/sheets"}
        self.assertLessEqual(known, set(scripts()))

    def test_help(self):
        for name in scripts():
            with self.subTest(script=name):
                done = self.run_in(ROOT, name, "--help")
                self.assertEqual((done.returncode, done.said), (0, ""))
                self.assertGreater(len(done.stdout.splitlines()), 2)
                self.assertNotIn(b"\n#", done.stdout)

    def test_bad_usage(self):
        for name in scripts():
            with self.subTest(script=name):
                done = self.run_in(ROOT, name, "--no-such-option")
                self.assertEqual((done.returncode, done.stdout), (2, b""))
                self.assertNotEqual(done.said, "")

    def test_more_bad_usage(self):
        for words in [["tools/differential/run", "print", "--by-readin"], ["tools/differential/run", "--rust"],
                      ["tools/differential/run"], ["tools/differential/run", "write", "--most"], ["bench/run", "--rust"], ["bench/run", "a", "b"],
                      ["tests/c/run", "a", "b"], ["tests/sheets/run", "nothing"], [".ci/run", "fast"], ["tools/build", "rules"],
                      ["tools/build", "nothing"], ["tools/must-fail-report"], ["tools/must-fail-report", "--check"]]:
            with self.subTest(words=words):
                done = self.run_in(ROOT, *words)
                self.assertEqual((done.returncode, done.stdout), (2, b""))
                self.assertTrue(f"  {words[0]}" in done.said or "--rust needs a path" in done.said, done.said)

    def test_sheets(self):
        for words, said in [
            ([], "a command is wanted, one of make, text, print, explain, reasons, build, check, all, pages, replay, "
                 "rewrite, reports, review;"),
            (["prin", "a"], "a command is wanted, one of make, text, "),
            (["print"], "print takes FILE;"),
            (["print", "a", "b"], "print takes FILE;"),
            (["check", "a"], "check takes no further word;"),
            (["replay"], "replay takes COMMAND ..;"),
            (["rewrite", "a"], "rewrite takes no further word;"),
            (["reasons"], "reasons takes FILE;"),
            (["reports", "a"], "reports takes no further word;"),
            (["review", "a"], "review takes no further word;"),
        ]:
            done = self.sheets(*words, root=ROOT)
            self.assertEqual((done.returncode, done.stdout), (2, b""))
            self.assertIn(said, done.said)
        self.assertEqual(self.sheets("print", "--help").stdout, self.sheets("--help", root=ROOT).stdout)

    def test_files_that_cant_be_read_or_written(self):
        for command in ["make", "text", "print", "explain", "reasons"]:
            for path, said in [(self.folder / "none.txt", "No such file"), (self.folder, "Is a directory")]:
                done = self.sheets(command, path)
                self.assertEqual((done.returncode, done.stdout), (2, b""))
                self.assertIn(f"{path}: {said}", done.said)
        with open("/dev/full", "wb") as full:
            words = [ROOT / "tools/sheets", "print", ROOT / "sheets/desk.sheet"]
            done = subprocess.run(words, stdout=full, stderr=subprocess.PIPE)
        self.assertEqual((done.returncode, done.stderr), (2, b"standard output: No space left on device\n"))
        # Closed outputs: nothing that looks like an answer, and no message where an answer belongs.
        for words, answer in [
            ("print sheets/desk.sheet >&-", (2, b"", b"standard output is closed\n")),
            ("make sheets/desk.sheet 2>&-", (2, b"", b"")),
        ]:
            done = subprocess.run(["bash", "-c", f"tools/sheets {words}"], cwd=ROOT, capture_output=True)
            self.assertEqual((done.returncode, done.stdout, done.stderr), answer)

    def test_python(self):
        self.assertIn(b"Needs Python 3.8 or later", self.sheets("--help").stdout)
        done = subprocess.run([sys.executable, "-c", OLD_PYTHON], cwd=ROOT, capture_output=True)
        self.assertEqual((done.returncode, done.stderr), (2, b"tools/sheets needs Python 3.8 or later; this is 3.7\n"))

    def test_what_installs_says_so(self):
        for name in [".ci/run", "bench/run", "tools/differential/run"]:
            done = self.run_in(ROOT, name, "--help")
            self.assertIn(b"by apt-get if they aren't there, and says so first", done.stdout)
        subprocess.run(["bash", "-c", INSTALLS, "bash", self.folder], cwd=ROOT, capture_output=True)
        self.assertEqual((self.folder / "seen").read_text(), "install\n")
