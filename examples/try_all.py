#!/usr/bin/env python3
"""Runs all examples by a command, and compares what they print with their transcripts.

    examples/try_all.py [COMMAND WORD...]

COMMAND is put before the script's file; `./luaris run` if none is given, and `lua5.4 tools/feed.lua` asks the judge.
Each NAME.transcript beside this file is what NAME.lua prints on the lines of NAME.lines, or on none where that file is
not there. Its last line tells the exit status. Status 0: all examples did as their transcripts say.
"""
import difflib
import pathlib
import subprocess
import sys

HERE = pathlib.Path(__file__).resolve().parent
TOP = HERE.parent
STATUS_OF = {b"return": 0, b"error": 1, b"yield": 3}


def wanted_status(transcript):
    """A script that returned, that failed, or that waits for a further line."""
    return STATUS_OF[transcript.splitlines()[-1].partition(b"\t")[0]]


def shown(output):
    return output.decode("utf-8", "backslashreplace").splitlines()


def is_as_told(command, transcript):
    lines = transcript.with_suffix(".lines")
    script = transcript.with_suffix(".lua").relative_to(TOP)
    done = subprocess.run(
        [*command, str(script)],
        cwd=TOP,
        input=lines.read_bytes() if lines.exists() else b"",
        capture_output=True,
        check=False,
    )
    wanted = transcript.read_bytes()
    status = wanted_status(wanted)
    if done.stdout == wanted and done.returncode == status:
        print(f"{script}: as its transcript")
        return True
    print(f"{script}: status {done.returncode}, wanted {status}", *shown(done.stderr)[-3:], sep="\n    ")
    for line in difflib.unified_diff(shown(wanted), shown(done.stdout), "wanted", "printed", lineterm="", n=1):
        print("   ", line)
    return False


def main():
    command = sys.argv[1:] or ["./luaris", "run"]
    results = [is_as_told(command, transcript) for transcript in sorted(HERE.glob("*.transcript"))]
    sys.exit(0 if results and all(results) else 1)


if __name__ == "__main__":
    main()
