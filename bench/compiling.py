#!/usr/bin/env python3
"""Times the compiler on large sources beside luac.

    bench/compiling.py [--runs N] [--keep FOLDER] [--luac LUAC] [PROGRAM]

Each source is compiled to a file by `PROGRAM compile FILE OUT`, as it is and in large pages as `./luaris compile` starts
it, and by `luac5.4 -p FILE`, which writes nothing, and `luac5.4 -o OUT FILE`. Told are the least times of several runs on
the processor, the time for each byte, and how many times as long the program takes as `luac5.4 -p`: of whole Lua in
64 KiB, 256 KiB and 1 MiB, of functions with many different constants, of blocks with many labels, and of `if` with many
`elseif`. Where the time grows with the source, that for each byte stays the same.

PROGRAM is crates/luaris/out/luaris beside this folder if none is given; ./luaris builds it. luac5.4 is that of Debian's
package lua5.4; `rt ci` runs nothing of this.
"""
import argparse
import os
import pathlib
import random
import resource
import runpy
import subprocess
import sys
import tempfile

LETTERS = "abcdefghijklmnopqrstuvwxyzABCDEFGHIJKLMNOPQRSTUVWXYZ0123456789"

WORDS = "room bag lamp rope door key lantern cellar attic shelf north south east west item count total limit".split()


class Source:
    """Statements of a source, made in an order that only the seed decides."""

    def __init__(self, seed):
        self.random = random.Random(seed)
        self.labels = 0

    def word(self):
        return self.random.choice(WORDS)

    def numeral(self):
        value = self.random.randrange(1 << self.random.choice([3, 8, 16, 40]))
        return self.random.choice([str(value), str(value), hex(value)])

    def string(self):
        text = " ".join(self.word() for _ in range(self.random.randrange(1, 6)))
        return self.random.choice(
            [
                f'"{text}"',
                f"'{text}'",
                f'"{text}\\n\\t\\"{self.word()}\\" \\x41\\065\\u{{20AC}}"',
                f"[[{text}\n{self.word()}]]",
                f"[==[{text}]]]==]",
            ]
        )

    def name(self):
        return self.random.choice([self.word(), f"{self.word()}.{self.word()}", f"{self.word()}[{self.numeral()}]"])

    def operand(self, depth):
        if depth == 0 or self.random.random() < 0.4:
            return self.random.choice([self.numeral, self.string, self.name, lambda: "nil", lambda: "true"])()
        return self.random.choice([self.calculation, self.call, self.table, self.chain, self.closure])(depth - 1)

    def calculation(self, depth):
        operator = self.random.choice("+ - * // % & | ~ << >> .. == ~= < <= > >= and or".split())
        left, right = self.operand(depth), self.operand(depth)
        return self.random.choice([f"({left} {operator} {right})", f"({left}) {operator} #{self.word()}", f"not ({right})", f"-{self.word()} {operator} {self.numeral()}"])

    def call(self, depth):
        return f"{self.word()}({', '.join(self.operand(depth) for _ in range(self.random.randrange(4)))})"

    def chain(self, depth):
        return f'{self.word()}:{self.word()}({self.operand(depth)}):{self.word()}"{self.word()}".{self.word()}:{self.word()}{{{self.operand(depth)}}}'

    def table(self, depth):
        fields = []
        for _ in range(self.random.randrange(6)):
            value = self.operand(depth)
            fields.append(self.random.choice([value, f"{self.word()} = {value}", f"[{self.numeral()}] = {value}"]))
        return "{" + self.random.choice([", ", "; "]).join(fields) + "}"

    def closure(self, depth):
        return f"function({self.word()}, ...) return {self.operand(depth)}, ... end"

    def function(self, depth):
        parameters = ", ".join(dict.fromkeys(self.word() for _ in range(self.random.randrange(4))))
        head = self.random.choice([f"function {self.word()}.{self.word()}:{self.word()}", f"local function {self.word()}", f"function {self.word()}"])
        return f"{head}({parameters})\n{self.block(depth)}return {self.operand(1)}\nend"

    def loop(self, depth):
        self.labels += 1
        label = f"next_{self.labels}"
        head = self.random.choice(
            [f"for {self.word()} = 1, {self.numeral()}, 2 do", f"for {self.word()}, value in pairs({self.operand(1)}) do", f"while {self.operand(1)} do"]
        )
        return f"{head}\nif {self.operand(1)} then goto {label} end\n{self.block(depth)}::{label}::\nend"

    def repeated(self, depth):
        return f"repeat\n{self.block(depth)}if {self.operand(1)} then break end\nuntil {self.operand(1)}"

    def branch(self, depth):
        return f"if {self.operand(2)} then\n{self.block(depth)}elseif {self.operand(1)} then\n{self.block(depth)}else\n{self.block(depth)}end"

    def simple(self, depth):
        return self.random.choice(
            [
                lambda: f"local fixed_{self.word()} <const>, {self.word()} = {self.operand(2)}, {self.numeral()}",
                lambda: f"{self.name()}, {self.name()} = {self.operand(2)}, {self.operand(1)}",
                lambda: f"{self.name()} = {self.operand(3)}",
                lambda: self.call(2),
                lambda: self.chain(1),
                lambda: f"-- {' '.join(self.word() for _ in range(8))}",
                lambda: f"--[=[ {self.word()}\n{' '.join(self.word() for _ in range(12))} ]=]",
            ]
        )()

    def statement(self, depth):
        if depth == 0:
            return self.simple(0)
        return self.random.choice([self.simple, self.simple, self.simple, self.function, self.loop, self.repeated, self.branch])(depth - 1)

    def block(self, depth):
        ends = ["\n"] * 9 + [";\n"]
        return "".join(self.statement(depth) + self.random.choice(ends) for _ in range(self.random.randrange(1, 5)))


def source_of(size):
    """So many bytes: blocks of statements, and a comment that fills the rest."""
    source = Source(size)
    parts = []
    left = size
    while True:
        part = f"do\n{source.block(3)}end\n"
        if len(part) + 3 > left:
            break
        parts.append(part)
        left -= len(part)
    return "".join(parts) + "--" + "-" * (left - 3) + "\n"


def word_of(number, first):
    """A word of three letters, the first of which is one of these."""
    return first[number % len(first)] + LETTERS[number // len(first) % 62] + LETTERS[number // len(first) // 62]


def constants(count):
    return "return {" + "".join(f'"{word_of(number, LETTERS)}",' for number in range(count)) + "}"


def labels(count):
    # No keyword begins so.
    return "".join(f"::{word_of(number, '_ABCDEFGHIJKLMNOPQRSTUVWXYZ')}::" for number in range(count))


def conditions(count):
    return "local a\nif a == 0 then a = 1\n" + "".join(f"elseif a == {number} then a = 2\n" for number in range(count)) + "end\n"


KINDS = [
    *((f"whole Lua, {size // 1024} KiB", source_of, size) for size in (64 * 1024, 256 * 1024, 1024 * 1024)),
    *((f"{count} constants", constants, count) for count in (20000, 75000, 150000)),
    *((f"{count} labels", labels, count) for count in (20000, 50000, 100000)),
    *((f"{count} elseif", conditions, count) for count in (5000, 10000, 20000)),
]


def processor_time():
    """The time that the programs called so far had on the processor, in seconds."""
    used = resource.getrusage(resource.RUSAGE_CHILDREN)
    return used.ru_utime + used.ru_stime


def time_once(words, environment):
    """The time of one run on the processor, in seconds, and what the command tells where it refuses the source."""
    used = processor_time()
    done = subprocess.run(words, stdin=subprocess.DEVNULL, capture_output=True, check=False, env=environment)
    if done.returncode != 0:
        return None, done.stderr.decode(errors="replace").strip()
    return processor_time() - used, ""


def timed(commands, runs):
    """Of each command the least time of so many runs, one command after the other in each round, or None and what it tells."""
    least = [None] * len(commands)
    for _ in range(runs):
        for number, (words, environment) in enumerate(commands):
            time, told = time_once(words, environment)
            if time is None:
                least[number] = told
            elif least[number] is None or time < least[number]:
                least[number] = time
    return least


def row_of(kind, size, plain, paged, parsed, written):
    """A line of the table: what the program takes, also in large pages, and what luac does, or why it refuses the source."""
    if isinstance(plain, str):
        sys.exit(f"{kind}: {plain}")
    if isinstance(parsed, str):
        return f"{kind:<22} {size:>9} {plain * 1e3:>9.1f} {'':>6} {paged * 1e3:>14.1f} {'':>6} {paged * 1e9 / size:>10.1f} {parsed}"
    beside = f"{plain * 1e3:>9.1f} {plain / parsed:>6.2f} {paged * 1e3:>14.1f} {paged / parsed:>6.2f} {paged * 1e9 / size:>10.1f}"
    return f"{kind:<22} {size:>9} {beside} {parsed * 1e3:>9.1f} {written * 1e3:>9.1f}"


def main():
    top = pathlib.Path(__file__).resolve().parent.parent
    words = argparse.ArgumentParser(description=__doc__, formatter_class=argparse.RawDescriptionHelpFormatter)
    words.add_argument("program", nargs="?", default=str(top / "crates/luaris/out/luaris"))
    words.add_argument("--luac", default="luac5.4")
    words.add_argument("--runs", type=int, default=5)
    words.add_argument("--keep", type=pathlib.Path, help="a folder in which the sources are left")
    given = words.parse_args()
    with tempfile.TemporaryDirectory() as folder:
        folder = given.keep or pathlib.Path(folder)
        folder.mkdir(parents=True, exist_ok=True)
        own, bare = str(folder / "own"), {name: value for name, value in os.environ.items() if name != "GLIBC_TUNABLES"}
        large = runpy.run_path(str(top / "luaris"))["environment"](["compile"])
        print(f"{'source':<22} {'bytes':>9} {'ms':>9} {'times':>6} {'in large pages':>14} {'times':>6} {'ns a byte':>10} {'luac -p':>9} {'luac -o':>9}")
        for number, (kind, make, count) in enumerate(KINDS):
            file = folder / f"source_{number}.lua"
            file.write_text(make(count))
            compile_it = [given.program, "compile", str(file), own]
            plain, paged, parsed, written = timed(
                [
                    (compile_it, bare),
                    (compile_it, large),
                    ([given.luac, "-p", str(file)], bare),
                    ([given.luac, "-o", str(folder / "other"), str(file)], bare),
                ],
                given.runs,
            )
            print(row_of(kind, file.stat().st_size, plain, paged, parsed, written), flush=True)


if __name__ == "__main__":
    main()
