"""Accepted sheets written anew by the library from their tables."""

import os
import subprocess

from desk import ROOT, DeskTest

from sheetdesk import fields
from sheetdesk.library import Library

DESK = (ROOT / "sheets/desk.sheet").read_bytes()
COLUMN = [1, 1, 0, 0, 0, 0, 0, 0, 0]
NUMBERS = [1, 1, 20, 0, 0, 22, 2, *COLUMN, *COLUMN, 0, 1, 0, 2, 0, 0, 1, 2, 0, 0, 1, 15]
TEXT = b"+-++|||+=++|||+-+++-++" + b"ab" + b"the quick brown"

# Takes every sheet, and answers so when it is to write one.
OTHER_LIBRARY = """
#include "cagwoni.h"
cagwoni_checked cagwoni_check(const uint8_t *s, size_t n) { return (cagwoni_checked){0, 0}; }
cagwoni_counted cagwoni_count(const uint8_t *s, size_t n) { return (cagwoni_counted){0}; }
cagwoni_measured cagwoni_widths(const uint8_t *s, size_t n) { return (cagwoni_measured){0}; }
cagwoni_printed cagwoni_print_page(const uint8_t *s, size_t n, uint8_t *p, size_t m) { return (cagwoni_printed){0}; }
cagwoni_printed cagwoni_write_sheet(const uint16_t *n, size_t k, const uint8_t *t, size_t l, uint8_t *s, size_t m) {
    return (cagwoni_printed){0, 0, m - 1};
}
"""


class Rewrite(DeskTest):
    def test_all(self):
        pages = [path.read_bytes() for path in (ROOT / "sheets").glob("*.page")]
        accepted = sum(not page.startswith(b"refused") for page in pages)
        done = self.sheets("rewrite")
        self.assertEqual((done.stdout.decode(), done.said), (f"{accepted} accepted sheets written anew, 0 differ\n", ""))
        self.assertEqual(done.returncode, 0)

    def test_desk(self):
        self.assertEqual(fields.apart(fields.read(DESK)[0]), (NUMBERS, TEXT))
        written = Library().written
        self.assertEqual(written(NUMBERS, TEXT, 83), ((0, 0, 81), DESK + b"\xFF\xFF"))
        self.assertEqual(written(NUMBERS, TEXT, 80), ((22, 81, 0), b"\xFF" * 80))
        self.assertEqual(written([2, *NUMBERS[1:]], TEXT, 83), ((3, 0, 0), b"\xFF" * 83))
        self.assertEqual(written([], b"", 0), ((1, 0, 0), b""))

    def test_another_library(self):
        root = self.tree()
        for path in (root / "sheets").glob("*.txt"):
            if path.name not in ("desk.txt", "bare.txt"):
                path.unlink()
        done = self.sheets("rewrite", root=root)
        self.assertEqual((done.returncode, done.stdout), (3, b""))
        folder = root / "target/staticlib"
        os.makedirs(folder)
        source, objects = self.file(OTHER_LIBRARY, "other.c"), self.folder / "other.o"
        subprocess.run(["gcc", "-fPIC", "-I", root / "include", "-c", source, "-o", objects], check=True)
        subprocess.run(["ar", "rc", folder / "libgateway.a", objects], check=True)
        done = self.sheets("rewrite", root=root)
        lines = ["sheets/bare.txt: another sheet", "sheets/desk.txt: another sheet", "2 accepted sheets written anew, 2 differ"]
        self.assertEqual((done.returncode, done.stdout.decode().splitlines()), (1, lines))
