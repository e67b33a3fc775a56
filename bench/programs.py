#!/usr/bin/env python3
"""Times a command on the programs of bench/programs beside lua5.4.

    bench/programs.py [--lua LUA] [--runs N] [--only NAME]... [COMMAND WORD...]

COMMAND is put before each program's file. Where none is given it is `crates/luaris/out/luaris run`, the program that
./luaris builds and starts: ./luaris itself is a script of Python, whose start would be counted. The runs of the two are
interleaved, and of each the one with the least time on the processor counts. Both are to print the same line; the
report line `return` that follows it is passed over. Status 0: each program ran and printed the same.

lua5.4 is that of Debian's package; `rt ci` runs nothing of this.
"""
import argparse
import dataclasses
import math
import pathlib
import resource
import shutil
import subprocess
import sys

TOP = pathlib.Path(__file__).resolve().parent.parent
REPORT = b"return\n"


@dataclasses.dataclass(frozen=True)
class Run:
    """What a run printed, its status, and its seconds on the processor."""

    printed: bytes
    status: int
    user: float
    system: float

    @property
    def seconds(self):
        return self.user + self.system


def run(words):
    before = resource.getrusage(resource.RUSAGE_CHILDREN)
    done = subprocess.run(words, cwd=TOP, stdin=subprocess.DEVNULL, capture_output=True, check=False)
    after = resource.getrusage(resource.RUSAGE_CHILDREN)
    printed = done.stdout.removesuffix(REPORT)
    return Run(printed, done.returncode, after.ru_utime - before.ru_utime, after.ru_stime - before.ru_stime)


def fault(stock, judged):
    """Why the times of two runs are not to be compared, or None."""
    if stock.status != 0:
        return f"lua ended with status {stock.status}"
    if judged.status != 0:
        return f"ended with status {judged.status}"
    if judged.printed != stock.printed:
        return f"printed {judged.printed[:60]!r}, not {stock.printed[:60]!r}"
    return None


def compared(file, options):
    """The least runs of lua and of the command on a program, and the first fault of any run."""
    stock, judged = [], []
    for _ in range(options.runs):
        stock.append(run([options.lua, file]))
        judged.append(run([*options.command, file]))
        found = fault(stock[-1], judged[-1])
        if found:
            return None, None, found
    return min(stock, key=lambda each: each.seconds), min(judged, key=lambda each: each.seconds), None


def main():
    parser = argparse.ArgumentParser(usage="bench/programs.py [--lua LUA] [--runs N] [--only NAME]... [COMMAND WORD...]")
    parser.add_argument("--lua", default="lua5.4")
    parser.add_argument("--runs", type=int, default=5)
    parser.add_argument("--only", action="append", default=[])
    parser.add_argument("command", nargs=argparse.REMAINDER)
    options = parser.parse_args()
    options.command = options.command or [str(TOP / "crates/luaris/out/luaris"), "run"]

    for command in (options.lua, options.command[0]):
        if not shutil.which(command):
            sys.exit(f"{command} is not there")

    files = sorted((TOP / "bench/programs").glob("*.lua"))
    ratios, faults = [], 0
    print(f"{'program':<18}{'lua user':>9}{'system':>8}{'user':>8}{'system':>8}{'ratio':>7}")
    for file in files:
        if options.only and file.stem not in options.only:
            continue
        stock, judged, found = compared(str(file.relative_to(TOP)), options)
        if found:
            faults += 1
            print(f"{file.stem:<18}{found}", flush=True)
            continue
        ratio = judged.seconds / max(stock.seconds, 0.001)
        ratios.append(ratio)
        times = f"{stock.user:>9.2f}{stock.system:>8.2f}{judged.user:>8.2f}{judged.system:>8.2f}"
        print(f"{file.stem:<18}{times}{ratio:>7.2f}", flush=True)
    if ratios:
        mean = math.exp(sum(map(math.log, ratios)) / len(ratios))
        print(f"{len(ratios)} programs, geometric mean {mean:.2f}, greatest {max(ratios):.2f}")
    return 1 if faults or not ratios else 0


if __name__ == "__main__":
    sys.exit(main())
