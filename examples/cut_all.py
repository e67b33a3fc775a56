#!/usr/bin/env python3
"""Runs all examples that wait for lines in sessions of one line each, and compares what they print together with their transcripts.

    examples/cut_all.py [PROGRAM]

PROGRAM is `./luaris` if none is given. The first session runs the script and saves it where it waits; each further one is a process
of its own that resumes the saved image on one line and saves it again. Status 0: together the sessions printed the transcript of the
script, and the last one ended as the transcript tells.
"""
import pathlib
import subprocess
import sys
import tempfile

from try_all import HERE, TOP, shown, wanted_status

SUSPENDED = 3


def session(program, words, line):
    done = subprocess.run([program, *words], cwd=TOP, input=line, capture_output=True, check=False)
    return done.stdout, done.returncode, done.stderr


def cut_run(program, script, lines, folder):
    """What the sessions print together, how the last one ended, and how many there were."""
    image, next_image = folder / "0.image", folder / "1.image"
    printed, status, errors = session(program, ["run", str(script), "--save", str(image)], b"")
    count = 1
    for line in lines:
        if status != SUSPENDED:
            break
        more, status, errors = session(program, ["resume", str(image), "--save", str(next_image)], line)
        printed += more
        count += 1
        image, next_image = next_image, image
    return printed, status, errors, count


def is_as_told(program, transcript):
    script = transcript.with_suffix(".lua").relative_to(TOP)
    lines = transcript.with_suffix(".lines").read_bytes().splitlines(keepends=True)
    with tempfile.TemporaryDirectory() as folder:
        printed, status, errors, count = cut_run(program, script, lines, pathlib.Path(folder))
    wanted = transcript.read_bytes()
    if printed == wanted and status == wanted_status(wanted):
        print(f"{script}: as its transcript, in {count} sessions")
        return True
    print(f"{script}: status {status}, wanted {wanted_status(wanted)}", *shown(errors)[-3:], sep="\n    ")
    print("    printed:", *shown(printed)[-3:], sep="\n    ")
    return False


def main():
    program = sys.argv[1] if len(sys.argv) > 1 else "./luaris"
    waiting = [t for t in sorted(HERE.glob("*.transcript")) if t.with_suffix(".lines").exists()]
    results = [is_as_told(program, transcript) for transcript in waiting]
    sys.exit(0 if results and all(results) else 1)


if __name__ == "__main__":
    main()
