"""Builds the C programs of c/, over the archives for C and over MPFR."""

from __future__ import annotations

import shutil
import subprocess
import sys
from pathlib import Path

ROOT = Path(__file__).resolve().parent.parent
SOURCES = ROOT / "c"
COMPILER = "gcc"
# Where rt writes what is measured and compared.
ARCHIVE = "crates/export/out/libexport.a"
WRITER_ARCHIVE = "crates/export_blocks/out/libexport_blocks.a"
REPORT = "crates/report/out/report"
# Exit status where something is missing, does not build or fails.
FAILED = 2
# A header, and the Debian package that has it.
HEADERS = {"stdio.h": "libc6-dev", "gmp.h": "libgmp-dev", "mpfr.h": "libmpfr-dev"}


def leave(reason: str) -> None:
    """Ends the script: nothing was compared or measured."""
    print(reason, file=sys.stderr)
    sys.exit(FAILED)


def need_compiler() -> None:
    """Leaves, with the package to install, unless the compiler and the headers are here."""
    if not shutil.which(COMPILER):
        leave(f"{COMPILER} is missing: install the Debian package gcc")
    for header, package in HEADERS.items():
        found = subprocess.run([COMPILER, "-E", "-x", "c", "-"], input=f"#include <{header}>\n",
                               text=True, capture_output=True)
        if found.returncode:
            leave(f"{header} is missing: install the Debian package {package}")


def ran(words: list, good: tuple[int, ...] = (0,), **options) -> subprocess.CompletedProcess:
    """Runs a program to its end; leaves unless its exit status is a good one."""
    try:
        run = subprocess.run(words, **options)
    except OSError as error:
        leave(f"{Path(words[0]).name} does not run: {error.strerror}")
    if run.returncode not in good:
        leave(f"{Path(words[0]).name} failed: "
              + (f"signal {-run.returncode}" if run.returncode < 0
                 else f"exit status {run.returncode}"))
    return run


def rt(crate: str, word: str) -> None:
    """Runs rt in the folder of a crate, with nothing to read; what it prints goes to standard error."""
    if not shutil.which("rt"):
        leave("rt is missing: install the Rattle toolchain, or name what it has built (--help)")
    if subprocess.run(["rt", word], cwd=ROOT / "crates" / crate, stdin=subprocess.DEVNULL,
                      stdout=sys.stderr).returncode:
        leave(f"rt {word} failed in crates/{crate}")


def built(path: str | None, place: str, crate: str = "", word: str = "") -> Path:
    """The file at the path; if none is named, that which rt with this word makes of the crate."""
    if path is None:
        rt(crate, word)
    file = ROOT / place if path is None else Path(path).resolve()
    if not file.is_file():
        leave(f"{file} is missing")
    return file


def archive(path: str | None) -> Path:
    """The archive at the path, or that of the repository, built now."""
    return built(path, ARCHIVE, "export", "lib")


def writer_archive(path: str | None) -> Path:
    """The archive of the writer at the path, or that of the repository, built now."""
    return built(path, WRITER_ARCHIVE, "export_blocks", "lib")


def compiled(folder: str, sources: list[str], flags: list[str], libraries: list[str],
             place: Path = SOURCES) -> Path:
    """The program of these sources at the place, named after the first of them."""
    program = Path(folder) / Path(sources[0]).stem
    words = [COMPILER, *flags, "-Wall", "-Wextra", "-Werror", "-o", str(program),
             *(str(place / source) for source in sources), *libraries]
    if subprocess.run(words).returncode:
        leave(f"{' '.join(sources)} did not compile and link")
    return program
