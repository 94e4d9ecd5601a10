"""The proved library of include/cagwoni.h as a shared object: verdicts, counts, widths, reasons and pages are its."""

import ctypes
import os
import subprocess
from pathlib import Path

ROOT = Path(__file__).resolve().parent.parent.parent
ARCHIVE = ROOT / "target/staticlib/libgateway.a"
SHARED = ROOT / "target/sheets/libgateway.so"
MOST_COLUMNS = 12


class Missing(Exception):
    """The library can't be had."""


class Checked(ctypes.Structure):
    _fields_ = [(name, ctypes.c_uint64) for name in ("number", "place")]


class Counted(ctypes.Structure):
    _fields_ = [(name, ctypes.c_uint64) for name in ("number", "place", "lines", "bytes")]


class Measured(ctypes.Structure):
    _fields_ = [(name, ctypes.c_uint64) for name in ("number", "place", "columns")] + [
        ("content", ctypes.c_uint16 * MOST_COLUMNS),
        ("hidden", ctypes.c_bool * MOST_COLUMNS),
    ]


class Reasoned(ctypes.Structure):
    _fields_ = [(name, ctypes.c_uint64) for name in ("number", "place", "columns")] + [
        ("step", ctypes.c_uint8 * MOST_COLUMNS),
        ("widened", ctypes.c_bool * MOST_COLUMNS),
        ("has_difference", ctypes.c_bool),
        ("difference", ctypes.c_int32),
    ]


class Printed(ctypes.Structure):
    _fields_ = [(name, ctypes.c_uint64) for name in ("number", "place", "written")]


def link():
    """Links the archive anew if it isn't the one that was linked: a link has its archive's time."""
    if not ARCHIVE.exists():
        what = f"no library at {ARCHIVE.relative_to(ROOT)}: run `tools/build gateway` first, in {ROOT}"
        raise Missing(f"{what}\n(it proves the library and writes it, some minutes the first time)")
    made = ARCHIVE.stat()
    if SHARED.exists() and SHARED.stat().st_mtime_ns == made.st_mtime_ns:
        return
    SHARED.parent.mkdir(parents=True, exist_ok=True)
    aside = SHARED.with_suffix(f".{os.getpid()}")
    command = ["gcc", "-shared", "-o", aside, "-Wl,--whole-archive", ARCHIVE, "-Wl,--no-whole-archive"]
    try:
        subprocess.run(command, check=True)
    except (OSError, subprocess.CalledProcessError) as error:
        raise Missing(f"gcc is needed to link {ARCHIVE.relative_to(ROOT)}: {error}") from None
    os.utime(aside, ns=(made.st_atime_ns, made.st_mtime_ns))
    os.replace(aside, SHARED)


class Library:
    def __init__(self):
        link()
        try:
            calls = ctypes.CDLL(str(SHARED))
        except OSError as error:
            raise Missing(f"{SHARED.relative_to(ROOT)} can't be loaded: {error}") from None
        sheet = [ctypes.c_char_p, ctypes.c_size_t]
        self.calls = calls
        for name, answer, more in [
            ("check", Checked, []),
            ("count", Counted, []),
            ("widths", Measured, []),
            ("print_page", Printed, [ctypes.c_void_p, ctypes.c_size_t]),
        ]:
            call = getattr(calls, "cagwoni_" + name)
            call.argtypes, call.restype = sheet + more, answer

    def check(self, sheet):
        return self.calls.cagwoni_check(sheet, len(sheet))

    def count(self, sheet):
        return self.calls.cagwoni_count(sheet, len(sheet))

    def widths(self, sheet):
        return self.calls.cagwoni_widths(sheet, len(sheet))

    def reasons(self, sheet):
        try:
            call = self.calls.cagwoni_reasons
        except AttributeError:
            raise Missing(f"{ARCHIVE.relative_to(ROOT)} is from before reports: run `tools/build gateway`") from None
        call.argtypes, call.restype = [ctypes.c_char_p, ctypes.c_size_t], Reasoned
        return call(sheet, len(sheet))

    def written(self, numbers, text, size):
        """The call's answer for an editor's table, and what a buffer of so many bytes, all FF, then holds."""
        call, length = self.calls.cagwoni_write_sheet, ctypes.c_size_t
        call.argtypes = [ctypes.c_void_p, length, ctypes.c_char_p, length, ctypes.c_void_p, length]
        call.restype = Printed
        words, buffer = (ctypes.c_uint16 * len(numbers))(*numbers), (ctypes.c_ubyte * size)(*[255] * size)
        answer = call(words, len(numbers), text, len(text), buffer, size)
        return (answer.number, answer.place, answer.written), bytes(buffer)

    def page(self, sheet):
        """The page of an accepted sheet."""
        size = self.count(sheet).bytes
        buffer = bytearray(size)
        if size:
            room = (ctypes.c_char * size).from_buffer(buffer)
            printed = self.calls.cagwoni_print_page(sheet, len(sheet), ctypes.addressof(room), size)
            assert printed.number == 0 and printed.written == size
        return buffer
