"""Compares the program `report` with the reference model on many inputs.

    python3 tools/compare_report.py FOLDER PROGRAM

FOLDER holds the reference model and its maker of blocks, model.py, requests.py and make_blocks.py;
PROGRAM is the built program, crates/report/out/report after `rt run < stdin` in crates/report.  Sound and damaged inputs
in either edition, and with a change of edition, are given whole and, some of them, in pieces that end
anywhere; then come reads that fail, inputs that do not end, and writes that fail.  Prints each
difference, and how many inputs and how many differences there were.  The same inputs come out of every
run.
"""

from __future__ import annotations

import os
import pty
import random
import subprocess
import sys
import time
import tty
from collections.abc import Iterator
from itertools import product

if len(sys.argv) != 3:
    sys.exit("usage: python3 tools/compare_report.py FOLDER PROGRAM")
FOLDER, PROGRAM = sys.argv[1:]
sys.dont_write_bytecode = True
sys.path.insert(0, FOLDER)

import make_blocks
import requests
from model import FULL_COUNT, LAST_BLOCK, LAST_COUNT, Record
from rules import RULES

# Blocks of one edition, and blocks that change from edition 0 to edition 1 at one of them, which
# may be the first, or at none.
EDITIONS = ("0", "1", "mixed")
# The damages that make other bytes of other blocks; the two that are left out make one file each.
DAMAGES = [name for name in make_blocks.DAMAGES if name not in ("empty", "overfull-last")]
SECONDS = 20
# What a pipe brings at a time: less than a block, and about as much as one or several.
SMALL_PIECES = (1, 2, 3, 5, 100, 200)
LARGE_PIECES = (400, 511, 512, 513, 1_000, 1_024, 1_700, 5_000)


def inputs() -> Iterator[tuple[str, bytes]]:
    """Every kind of damage, with ordinary and extreme records, few vans and as many as fit, and too
    many in the last block; other bytes 6 and 7; blocks cut off, and bytes behind a full depot."""
    for edition, damage in product(EDITIONS, DAMAGES):
        for style, vans, seed in product(make_blocks.STYLES, (1, 19, 20, 21, 50, 100), (1, 2, 3)):
            yield made(seed, vans, style, damage, edition)
        for vans in (4079, 4080, 4081, 4095, 4096):
            yield made(1, vans, "mixed", damage, edition)
    most = LAST_BLOCK * FULL_COUNT + LAST_COUNT
    records = [Record(van, 0, van, 1, 0) for van in range(1, most + 2)]
    for edition in (0, 1):
        yield (f"a last block with a record too many, edition {edition}",
               b"".join(make_blocks.edition_blocks(records, lambda i: edition)))
    for header, edition in product((0, 1, 2, 255, 256, 257), "01"):
        pieces = make_blocks.make_pieces(2, 41, "mixed", "none", edition)
        for i, block in enumerate(pieces):
            other = make_blocks.put(block, 6, header.to_bytes(2, "little"))
            yield (f"bytes 6 and 7 of block {i} of edition {edition} are {header}",
                   b"".join([*pieces[:i], other, *pieces[i + 1:]]))
    block = make_blocks.make_pieces(1, 20, "mixed", "none", "0")[0]
    for length in range(513):
        yield f"a block cut to {length} bytes", block[:length]
        yield f"{length} zeros", bytes(length)
    depot = made(1, 4096, "mixed", "none", "0")[1]
    for more in (b"\0", depot[:512], depot, 3 * depot):
        yield f"4096 vans and {len(more)} bytes more", depot + more


def made(seed: int, vans: int, style: str, damage: str, edition: str) -> tuple[str, bytes]:
    """The name and the bytes of one input."""
    pieces = make_blocks.make_pieces(seed, vans, style, damage, edition)
    return (f"seed {seed}, {vans} vans, {style}, damage {damage}, edition {edition}",
            b"".join(pieces))


def whole(data: bytes) -> tuple[bytes, bytes]:
    """What the program writes to its two outputs when the input is at hand at once."""
    run = subprocess.run([PROGRAM], input=data, capture_output=True, timeout=SECONDS)
    return run.stdout, run.stderr


def in_pieces(data: bytes, sizes: tuple[int, ...]) -> tuple[bytes, bytes]:
    """The same where a pipe brings so many bytes at a time."""
    rng = random.Random(len(data))
    run = subprocess.Popen([PROGRAM], stdin=subprocess.PIPE, stdout=subprocess.PIPE,
                           stderr=subprocess.PIPE)
    at = 0
    try:
        while at < len(data):
            size = rng.choice(sizes)
            os.write(run.stdin.fileno(), data[at:at + size])
            at += size
            time.sleep(0.0005)
    except BrokenPipeError:
        pass
    return run.communicate(timeout=SECONDS)


def with_redirection(words: str) -> tuple[bytes, bytes]:
    """The same under a shell's redirection."""
    run = subprocess.run(["sh", "-c", f'"$0" {words}', PROGRAM], capture_output=True,
                         timeout=SECONDS)
    return run.stdout, run.stderr


def cut_off(data: bytes) -> tuple[bytes, bytes]:
    """The same where the read behind these bytes fails: the other end of a terminal is gone."""
    reader, writer = pty.openpty()
    tty.setraw(writer)
    os.write(writer, data)
    os.close(writer)
    run = subprocess.run([PROGRAM], stdin=reader, capture_output=True, timeout=SECONDS)
    os.close(reader)
    return run.stdout, run.stderr


def held_open(data: bytes) -> tuple[bytes, bytes]:
    """The same where nothing follows these bytes and the input does not end."""
    run = subprocess.Popen([PROGRAM], stdin=subprocess.PIPE, stdout=subprocess.PIPE,
                           stderr=subprocess.PIPE)
    run.stdin.write(data)
    run.stdin.flush()
    run.wait(timeout=SECONDS)
    return run.communicate()


class Comparison:
    """How many inputs were given, and on how many the program wrote something else."""

    def __init__(self) -> None:
        self.inputs = 0
        self.differences = 0

    def expect(self, name: str, found: tuple[bytes, bytes], wanted: tuple[bytes, bytes]) -> None:
        self.inputs += 1
        if found != wanted:
            self.differences += 1
            print(f"{name}: wanted {wanted}, found {found}")


def main() -> None:
    comparison = Comparison()
    for name, data in inputs():
        wanted = requests.report(data, RULES).encode(), b""
        comparison.expect(name, whole(data), wanted)
        if name.startswith(("seed 1, 50 vans, mixed", "seed 1, 100 vans, extreme")):
            for sizes in (SMALL_PIECES, LARGE_PIECES):
                comparison.expect(f"{name}, in pieces of up to {max(sizes)} bytes",
                                  in_pieces(data, sizes), wanted)
    unread = b"", b"report: cannot read standard input\n"
    comparison.expect("a closed input", with_redirection("<&-"), unread)
    comparison.expect("a folder as input", with_redirection("</"), unread)
    block = make_blocks.make_pieces(1, 5, "mixed", "none", "0")[0]
    for data in (b"", block[:100], block):
        comparison.expect(f"a read that fails after {len(data)} bytes", cut_off(data), unread)
    comparison.expect("a read that would fail behind a refused block", cut_off(block + block),
                      (b"refused 13 block 1\n", b""))
    full = make_blocks.make_pieces(1, 60, "mixed", "none", "0")
    for before, behind in product(range(4), (0, 1, 300, 512, 700)):
        comparison.expect(f"{before} blocks, a refused one and {behind} bytes, and no end",
                          held_open(b"".join(full[:before]) + bytes(512 + behind)),
                          (f"refused 14 block {before}\n".encode(), b""))
    comparison.expect("an endless input", with_redirection("</dev/zero"),
                      (b"refused 14 block 0\n", b""))
    for words in ("</dev/null >/dev/full", "</dev/null >&-"):
        comparison.expect("an output that takes nothing: " + words, with_redirection(words),
                          (b"", b"report: cannot write to standard output\n"))
    print(f"{comparison.inputs} inputs, {comparison.differences} differences")
    sys.exit(comparison.differences > 0)


if __name__ == "__main__":
    main()
