#!/usr/bin/env python3
"""Runs the chunks that the program compiles on stock Lua, and counts their instructions beside those of luac.

Each *.lua below a folder is run by lua5.4 as it stands; then the program compiles it, with its lines and names and
without (`PROGRAM compile FILE OUT [--strip]`), and lua5.4 runs both chunks. The printed bytes and the exit status
of each are to be those of the source. What a source prints may hang on choices that Lua leaves open, as the order of
`next` or addresses: such a source is told as unsteady where two runs of it differ, and counts for nothing.

    bench/stock_lua.py [--lua LUA] [--luac LUAC] [--program PROGRAM] [--seconds N] FOLDER

PROGRAM is ./luaris above this folder if none is given. Status 0: no chunk differs. lua5.4 and luac5.4 are those of
Debian's package lua5.4; `rt ci` runs nothing of this.
"""
import argparse
import dataclasses
import pathlib
import re
import subprocess
import sys
import tempfile

TOP = pathlib.Path(__file__).resolve().parent.parent
HEADS = re.compile(r"^(?:main|function) <.*> \((\d+) instructions? at", re.MULTILINE)


@dataclasses.dataclass(frozen=True)
class Outcome:
    """What a run printed, and how it ended; no status where it took too long."""

    status: int | None
    printed: bytes


def run(words, folder, seconds):
    try:
        done = subprocess.run(words, cwd=folder, stdin=subprocess.DEVNULL, capture_output=True, timeout=seconds, check=False)
    except subprocess.TimeoutExpired:
        return Outcome(None, b"")
    return Outcome(done.returncode, done.stdout)


def instructions(luac, chunk):
    """How many instructions a source or a chunk has, with all functions in it."""
    listing = subprocess.run([luac, "-l", "-p", chunk], capture_output=True, text=True, errors="replace", check=False)
    return sum(int(count) for count in HEADS.findall(listing.stdout))


class Comparison:
    def __init__(self, options, work):
        self.options = options
        self.work = pathlib.Path(work)
        self.counts = {"alike": 0, "different": 0, "unsteady": 0, "not compiled": 0}
        self.ratios = []
        self.own = self.stock = 0

    def tell(self, kind, source, text=""):
        self.counts[kind] += 1
        if kind != "alike":
            print(f"{kind}: {source}{text}", flush=True)

    def compile(self, source, strip):
        """The chunk of a source, or none where the program does not compile it."""
        out = self.work / ("stripped.luac" if strip else "plain.luac")
        out.unlink(missing_ok=True)
        words = [self.options.program, "compile", source, out] + (["--strip"] if strip else [])
        done = subprocess.run(words, capture_output=True, timeout=self.options.seconds, check=False)
        return out if done.returncode == 0 and out.is_file() else None

    def count(self, source, chunk):
        own, stock = instructions(self.options.luac, chunk), instructions(self.options.luac, source)
        self.own += own
        self.stock += stock
        self.ratios.append((own / max(stock, 1), source))

    def compare(self, source):
        lua, seconds = self.options.lua, self.options.seconds
        wanted = run([lua, source], source.parent, seconds)
        if wanted.status is None or run([lua, source], source.parent, seconds) != wanted:
            return self.tell("unsteady", source)
        chunks = [self.compile(source, strip) for strip in (False, True)]
        if None in chunks:
            return self.tell("not compiled", source)
        self.count(source, chunks[0])
        for name, chunk in zip(("plain", "stripped"), chunks):
            got = run([lua, chunk], source.parent, seconds)
            if got != wanted:
                return self.tell("different", source, f" ({name}: status {got.status} for {wanted.status})")
        return self.tell("alike", source)

    def report(self):
        print(", ".join(f"{number} {kind}" for kind, number in self.counts.items()))
        if self.ratios:
            ratio, source = max(self.ratios)
            print(f"{self.own} instructions, {self.stock} by luac: {self.own / max(self.stock, 1):.3f}; at most {ratio:.3f}, {source}")


def main():
    words = argparse.ArgumentParser(description=__doc__, formatter_class=argparse.RawDescriptionHelpFormatter)
    words.add_argument("folder", type=pathlib.Path)
    words.add_argument("--lua", default="lua5.4")
    words.add_argument("--luac", default="luac5.4")
    words.add_argument("--program", type=pathlib.Path, default=TOP / "luaris")
    words.add_argument("--seconds", type=float, default=20)
    options = words.parse_args()
    options.program = options.program.resolve()
    with tempfile.TemporaryDirectory() as work:
        comparison = Comparison(options, work)
        for source in sorted(options.folder.resolve().rglob("*.lua")):
            comparison.compare(source)
        comparison.report()
    sys.exit(0 if comparison.counts["different"] + comparison.counts["not compiled"] == 0 else 1)


if __name__ == "__main__":
    main()
