#!/usr/bin/env python3
"""Runs calls of library functions through a command, and lists where its answers are not lua5.4's.

    tools/compare_library.py [COMMAND WORD...]     compares; COMMAND is put before the script's file
    tools/compare_library.py --record              asks lua5.4 anew, and writes the table

bench/library_calls.txt has the calls, and bench/library_calls.tsv each with the answer of lua5.4, run by tools/feed.lua.
A call is run as the script `coroutine.yield(CALL)`, so that an answer is what is printed and one report line. Where an
answer differs as bench/library_differences.tsv says, the difference is intended. If no command is given it is
`crates/luaris/out/luaris run`. Status 0: all other answers are lua5.4's.
"""
import argparse
import concurrent.futures
import dataclasses
import pathlib
import re
import shutil
import subprocess
import sys
import tempfile

TOP = pathlib.Path(__file__).resolve().parent.parent
CALLS = TOP / "bench/library_calls.txt"
TABLE = TOP / "bench/library_calls.tsv"
DIFFERENCES = TOP / "bench/library_differences.tsv"
JUDGE = ["lua5.4", str(TOP / "tools/feed.lua")]
WRONG = ["nil", "{}", '"x"', "-1"]
ADDRESS = re.compile(r"(?<=: )0x[0-9a-f]{8,}")
LONGEST = 300  # characters of an answer that are kept
SECONDS = 20


@dataclasses.dataclass(frozen=True)
class Differences:
    """Answers that are intended for single calls, and rules that turn lua5.4's answer into the intended one."""

    single: dict[str, str]
    rules: list[tuple[re.Pattern, str]]

    def intended(self, call, answer):
        if call in self.single:
            return self.single[call]
        for pattern, replacement in self.rules:
            answer = pattern.sub(replacement, answer)
        return answer


def expanded(line):
    """The calls that a line stands for."""
    if not line.startswith("@ "):
        return [line]
    function, *arguments = line[2:].split(" | ")
    lists = [arguments[:count] for count in range(len(arguments) + 1)]
    for place in range(len(arguments)):
        lists += [arguments[:place] + [wrong] + arguments[place + 1 :] for wrong in WRONG]
    return [f"{function}({', '.join(each)})" for each in lists]


def all_calls():
    lines = [line for line in CALLS.read_text().splitlines() if line and not line.startswith("-- ")]
    return list(dict.fromkeys(call for line in lines for call in expanded(line)))


def rows_of(file):
    return [line.split("\t") for line in file.read_text().splitlines() if line and not line.startswith("-- ")]


def differences():
    rows = rows_of(DIFFERENCES)
    rules = [(re.compile(pattern), replacement) for kind, pattern, replacement, _ in rows if kind == "rule"]
    return Differences({call: answer for kind, call, answer, _ in rows if kind == "call"}, rules)


def answer_of(command, call):
    """What the command printed for a call: bytes as characters, those that do not show as escapes, addresses as `object`."""
    with tempfile.TemporaryDirectory() as folder:
        pathlib.Path(folder, "call.lua").write_text(f"coroutine.yield({call})\n")
        try:
            done = subprocess.run([*command, "call.lua"], cwd=folder, stdin=subprocess.DEVNULL, capture_output=True, timeout=SECONDS, check=False)
        except subprocess.TimeoutExpired:
            return "no end"
    text = done.stdout.decode("latin-1").removesuffix("\n").encode("unicode_escape").decode()
    told = "" if done.stdout else done.stderr.decode("latin-1").strip()
    return ADDRESS.sub("object", text or f"status {done.returncode} {told}")[:LONGEST]


def answers_of(command, calls):
    with concurrent.futures.ThreadPoolExecutor(max_workers=2) as workers:
        return list(workers.map(lambda call: answer_of(command, call), calls))


def record():
    calls = all_calls()
    lines = [f"{call}\t{answer}\n" for call, answer in zip(calls, answers_of(JUDGE, calls))]
    TABLE.write_text("-- Written by tools/compare_library.py --record: each call, a tab, and the answer of lua5.4.\n" + "".join(lines))
    print(f"{len(calls)} calls")


def compare(command):
    table, known = dict(rows_of(TABLE)), differences()
    counts = {"alike": 0, "intended": 0, "alike, though a difference is intended": 0, "different": 0}
    for (call, stock), answer in zip(table.items(), answers_of(command, table)):
        intended = known.intended(call, stock)
        if answer == intended:
            kind = "alike" if answer == stock else "intended"
        else:
            kind = "alike, though a difference is intended" if answer == stock else "different"
        counts[kind] += 1
        if answer != intended:
            print(f"{kind}: {call}\n    here     {answer}\n    lua5.4   {stock}\n    intended {intended}")
    for call in known.single.keys() - table.keys():
        print(f"a difference is intended for {call}, which is not in the table")
    print(", ".join(f"{count} {kind}" for kind, count in counts.items()))
    return 1 if counts["different"] else 0


def main():
    parser = argparse.ArgumentParser(usage="tools/compare_library.py --record | [COMMAND WORD...]")
    parser.add_argument("--record", action="store_true")
    parser.add_argument("command", nargs=argparse.REMAINDER)
    options = parser.parse_args()
    given = [str(pathlib.Path(word).resolve()) if pathlib.Path(word).is_file() else word for word in options.command]
    command = JUDGE if options.record else given or [str(TOP / "crates/luaris/out/luaris"), "run"]
    if not shutil.which(command[0]):
        sys.exit(f"{command[0]} is not there")
    return record() if options.record else compare(command)


if __name__ == "__main__":
    sys.exit(main())
