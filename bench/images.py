#!/usr/bin/env python3
"""Measures saving and resuming of large scripts, and what becomes of damaged images.

    bench/images.py PROGRAM [--damage]

Without --damage: scripts with many objects wait at a yield, are saved, and are resumed; seconds, bytes of the image and peak memory of
both are printed. With --damage: an image of about a million bytes is cut at 1,000 places and changed at 20,000 places; each run has to
end in a refusal of the image, or to go on and end by itself, never otherwise.
"""
import collections
import contextlib
import os
import pathlib
import random
import subprocess
import sys
import tempfile
import time

SCRIPTS = {
    "50,000 tables": 'local t = {} for i = 1, 50000 do t[i] = {i} end coroutine.yield("saved") print(#t, t[50000][1])',
    "1,000,000 tables": 'local t = {} for i = 1, 1000000 do t[i] = {i} end coroutine.yield("saved") print(#t, t[1000000][1])',
    "a chain of 1,000,000 tables": 'local t for i = 1, 1000000 do t = {t} end coroutine.yield("saved") local n = 0 while t do n = n + 1 t = t[1] end print(n)',
    "5,000 suspended coroutines": """
local waiting = {}
for i = 1, 5000 do
  waiting[i] = coroutine.wrap(function() local sum = i while true do sum = sum + coroutine.yield(sum) end end)
  waiting[i]()
end
coroutine.yield("saved")
local total = 0
for i = 1, 5000 do total = total + waiting[i](1) end
print(total)
""",
}
BUDGET = ["--budget", "100000000"]
ENDS = {0: "returned", 1: "failed", 3: "waits", 4: "spent its budget", 8: "refused"}


def timed(program, words, given):
    """Output, status, seconds and peak memory of one process."""
    began = time.monotonic()
    process = subprocess.Popen([program, *words], stdin=subprocess.PIPE, stdout=subprocess.PIPE, stderr=subprocess.PIPE)
    # A program that refuses its image ends without a look at its input.
    with contextlib.suppress(BrokenPipeError):
        process.stdin.write(given)
    with contextlib.suppress(BrokenPipeError):
        process.stdin.close()
    printed = process.stdout.read()
    _, status, used = os.wait4(process.pid, 0)
    process.returncode = os.waitstatus_to_exitcode(status)
    return printed, process.returncode, time.monotonic() - began, used.ru_maxrss // 1024


def measure(program, name, text, folder):
    script, image = folder / "script.lua", folder / "image"
    script.write_text(text)
    _, status, seconds, memory = timed(program, ["run", str(script), "--save", str(image), *BUDGET], b"")
    print(f"{name}: saved with status {status} in {seconds:.2f} s, {image.stat().st_size} bytes, {memory} MiB")
    printed, status, seconds, memory = timed(program, ["resume", str(image), *BUDGET], b"on\n")
    print(f"    resumed with status {status} in {seconds:.2f} s, {memory} MiB: {printed.decode().splitlines()[-1:]}")


def changed(image, places):
    """The image with one to four bytes changed at one place."""
    damaged = bytearray(image)
    at = places.randrange(len(image))
    for offset in range(places.randint(1, 4)):
        if at + offset < len(damaged):
            damaged[at + offset] = places.randrange(256)
    return bytes(damaged)


def damage(program, folder):
    script, image, broken = folder / "script.lua", folder / "image", folder / "broken"
    script.write_text('local t = {} for i = 1, 20000 do t[i] = {i, tostring(i)} end local s = coroutine.yield("saved") print(#t, s)')
    timed(program, ["run", str(script), "--save", str(image), *BUDGET], b"")
    whole = image.read_bytes()
    places = random.Random(1)
    damaged = [whole[:places.randrange(len(whole))] for _ in range(1000)] + [changed(whole, places) for _ in range(20000)]
    ends, slowest = collections.Counter(), 0.0
    for given in damaged:
        broken.write_bytes(given)
        _, status, seconds, _ = timed(program, ["resume", str(broken), "--budget", "100000"], b"on\n")
        ends[ENDS.get(status, f"status {status}")] += 1
        slowest = max(slowest, seconds)
    print(f"{len(whole)} bytes, {len(damaged)} damaged images: {dict(ends)}, the slowest {slowest:.2f} s")
    return not any(end.startswith("status") for end in ends)


def main():
    program = str(pathlib.Path(sys.argv[1]).resolve())
    with tempfile.TemporaryDirectory() as folder:
        if "--damage" in sys.argv:
            sys.exit(0 if damage(program, pathlib.Path(folder)) else 1)
        for name, text in SCRIPTS.items():
            measure(program, name, text, pathlib.Path(folder))


if __name__ == "__main__":
    main()
