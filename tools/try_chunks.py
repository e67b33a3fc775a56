#!/usr/bin/env python3
"""Runs chunks that luac writes, and code at the edges of the rules on code.

    tools/try_chunks.py alike [--luac LUAC] [--program PROGRAM] [--budget N] FOLDER
    tools/try_chunks.py edges [--luac LUAC] [--program PROGRAM] [--most N] FOLDER

`alike`: each *.lua below FOLDER is run by the program as it stands, and as luac compiles it, with its lines and names and
without; what is printed and the status are to be those of the source. Where a stripped chunk fails, only the status is
compared, since its errors have no places.

`edges`: in the chunk of each *.lua, field by field, an instruction's fields are set to what stands at an edge: nothing, one,
the last register and the first that is none, the last constant, upvalue and function and the first that are none, the
greatest, a jump to the first and last place and just past them. Each chunk that `check` accepts is run with a budget of
1,000: it is to end by a status of the program, and not by a signal or never. N tells how many chunks are made at most of a
source, spread evenly.

PROGRAM is ./luaris above this folder if none is given. Status 0: nothing is otherwise. luac5.4 is that of Debian's package
lua5.4; `rt ci` runs nothing of this.
"""
import argparse
import collections
import dataclasses
import pathlib
import subprocess
import sys
import tempfile

TOP = pathlib.Path(__file__).resolve().parent.parent
HEADER = 32
SECONDS = 20
ENDINGS = {0, 1, 3, 4, 9}
# where a field of an instruction begins, and how many bits it has (lopcodes.h)
FIELDS = {"op": (0, 7), "A": (7, 8), "k": (15, 1), "B": (16, 8), "C": (24, 8), "Bx": (15, 17), "Ax": (7, 25)}
HALF_OF_BX, HALF_OF_AX = 65535, 16777215
OPCODES = 83


@dataclasses.dataclass
class Function:
    """Where a function's code stands in a chunk's bytes, and how much of everything it has."""

    code: int
    instructions: int
    registers: int
    constants: int = 0
    upvalues: int = 0
    functions: int = 0


class Reader:
    """Reads a chunk as lundump.c does, and keeps where the code of each function stands."""

    def __init__(self, chunk):
        self.chunk, self.place, self.found = chunk, HEADER, []
        self.function()

    def byte(self):
        self.place += 1
        return self.chunk[self.place - 1]

    def number(self):
        value = 0
        while True:
            byte = self.byte()
            value = value << 7 | byte & 0x7F
            if byte & 0x80:
                return value

    def skip(self, many):
        self.place += many

    def string(self):
        self.skip(max(self.number() - 1, 0))

    def constant(self):
        tag = self.byte()
        if tag in (0x04, 0x14):
            self.string()
        elif tag in (0x03, 0x13):
            self.skip(8)

    def function(self):
        self.string()
        self.number(), self.number()
        self.byte(), self.byte()
        registers = self.byte()
        count = self.number()
        own = Function(self.place, count, registers)
        self.found.append(own)
        self.skip(4 * count)
        own.constants = self.number()
        for _ in range(own.constants):
            self.constant()
        own.upvalues = self.number()
        self.skip(3 * own.upvalues)
        own.functions = self.number()
        for _ in range(own.functions):
            self.function()
        self.skip(self.number())
        for _ in range(self.number()):
            self.number(), self.number()
        for _ in range(self.number()):
            self.string(), self.number(), self.number()
        for _ in range(self.number()):
            self.string()


def edges(own, pc):
    """The values at an edge for each field of the instruction at pc."""
    counts = {own.registers, own.constants, own.upvalues, own.functions}
    near = {0, 1, 2, 127, 128, 254, 255} | {count + by for count in counts for by in (-2, -1, 0)}
    targets = {target - (pc + 1) for target in (-1, 0, 1, own.instructions - 1, own.instructions)}
    yield "op", range(OPCODES)
    for field in ("A", "B", "C"):
        yield field, near
    yield "k", (0, 1)
    yield "Bx", near | {HALF_OF_BX + target for target in targets} | {-target for target in targets} | {(1 << 17) - 1}
    yield "Ax", {HALF_OF_AX + target for target in targets}


def variants(chunk):
    """Each chunk in which one field of one instruction is at an edge."""
    for own in Reader(chunk).found:
        for pc in range(own.instructions):
            at = own.code + 4 * pc
            word = int.from_bytes(chunk[at : at + 4], "little")
            for field, values in edges(own, pc):
                first, bits = FIELDS[field]
                mask = (1 << bits) - 1
                for value in sorted(values):
                    other = word & ~(mask << first) | (value & mask) << first
                    if 0 <= value <= mask and other != word:
                        yield chunk[:at] + other.to_bytes(4, "little") + chunk[at + 4 :]


@dataclasses.dataclass(frozen=True)
class Outcome:
    """How a run ended, and what it printed; no status where it took too long."""

    status: int | None
    printed: bytes = b""


def run(*words):
    try:
        done = subprocess.run(words, stdin=subprocess.DEVNULL, capture_output=True, timeout=SECONDS, check=False)
    except subprocess.TimeoutExpired:
        return Outcome(None)
    return Outcome(done.returncode, done.stdout)


def compiled(options, source, out, *more):
    return run(options.luac, *more, "-o", out, source).status == 0


def alike(options, work):
    counts = collections.Counter()
    chunk = f"{work}/chunk.luac"
    for source in sorted(pathlib.Path(options.folder).rglob("*.lua")):
        wanted = run(options.program, "run", source, "--budget", options.budget)
        if wanted.status not in ENDINGS:
            counts["refused or too long as a source"] += 1
            continue
        for stripping in ((), ("-s",)):
            if not compiled(options, source, chunk, *stripping):
                counts["refused by luac"] += 1
                continue
            got = run(options.program, "run", chunk, "--budget", options.budget)
            same = got == wanted or (stripping and wanted.status == 1 and got.status == 1)
            counts["alike" if same else "otherwise"] += 1
            if not same:
                print(f"otherwise: {source} {' '.join(stripping)}: {wanted.status} as a source, {got.status} as a chunk", flush=True)
    return counts


def at_edges(options, work):
    counts = collections.Counter()
    whole, changed = f"{work}/whole.luac", f"{work}/changed.luac"
    for source in sorted(pathlib.Path(options.folder).rglob("*.lua")):
        if not compiled(options, source, whole, "-s"):
            continue
        every = list(variants(pathlib.Path(whole).read_bytes()))
        step = max(1, len(every) // options.most)
        for number, chunk in enumerate(every[::step]):
            pathlib.Path(changed).write_bytes(chunk)
            if run(options.program, "check", changed).status != 0:
                counts["refused by a rule"] += 1
                continue
            got = run(options.program, "run", changed, "--budget", "1000")
            fine = got.status in ENDINGS
            counts[f"ends with {got.status}" if fine else "otherwise"] += 1
            if not fine:
                pathlib.Path(f"otherwise-{source.stem}-{number}.luac").write_bytes(chunk)
                print(f"otherwise: {source}, kept as otherwise-{source.stem}-{number}.luac: {got.status}", flush=True)
    return counts


def main():
    words = argparse.ArgumentParser(description=__doc__, formatter_class=argparse.RawDescriptionHelpFormatter)
    words.add_argument("what", choices=("alike", "edges"))
    words.add_argument("folder")
    words.add_argument("--luac", default="luac5.4")
    words.add_argument("--program", default=str(TOP / "luaris"))
    words.add_argument("--budget", default="100000000")
    words.add_argument("--most", type=int, default=1000)
    options = words.parse_args()
    with tempfile.TemporaryDirectory() as work:
        counts = alike(options, work) if options.what == "alike" else at_edges(options, work)
    print(", ".join(f"{kind}: {count}" for kind, count in sorted(counts.items())))
    return 1 if counts["otherwise"] else 0


if __name__ == "__main__":
    sys.exit(main())
