"""What the tests share: the tool run on its words, and copies of the tree that can be damaged."""

import contextlib
import io
import shutil
import subprocess
import sys
import tempfile
import unittest
from collections import namedtuple
from pathlib import Path

ROOT = Path(__file__).resolve().parent.parent.parent
sys.path.insert(0, str(ROOT / "tools"))

from sheetdesk import command  # found by the path above


Done = namedtuple("Done", "returncode stdout said")


class DeskTest(unittest.TestCase):
    def setUp(self):
        folder = tempfile.TemporaryDirectory()
        self.addCleanup(folder.cleanup)
        self.folder = Path(folder.name)

    def run_in(self, root, *words):
        done = subprocess.run([str(root / words[0]), *map(str, words[1:])], capture_output=True, timeout=120)
        return Done(done.returncode, done.stdout, done.stderr.decode())

    def sheets(self, *words, root=None):
        """The tool's answer: of this tree without a new process, which takes longer than the work; or of a copy."""
        if root:
            return self.run_in(root, "tools/sheets", *words)
        out, said = io.TextIOWrapper(io.BytesIO()), io.StringIO()
        with contextlib.redirect_stdout(out), contextlib.redirect_stderr(said):
            status = command.main([str(word) for word in words])
        out.flush()
        return Done(status, out.buffer.getvalue(), said.getvalue())

    def file(self, data, name="form.txt"):
        path = self.folder / name
        path.write_bytes(data if isinstance(data, bytes) else data.encode())
        return path

    def made(self, form):
        """The sheet of a right form."""
        done = self.sheets("make", self.file(form))
        self.assertEqual((done.said, done.returncode), ("", 0))
        return done.stdout

    def page(self, form):
        done = self.sheets("print", self.file(form))
        self.assertEqual((done.said, done.returncode), ("", 0))
        return done.stdout.decode()

    def tree(self):
        """A copy of what the stored sheets and their tests need, without an archive."""
        root = self.folder / "tree"
        for name in ["tools", "sheets", "tests", "include"]:
            shutil.copytree(ROOT / name, root / name)
        return root
