#!/usr/bin/env python3
"""Runs `score` with less and less memory: each answer is the right one, or status 5 with the line of want of memory.

usage: memory-limits.py PROGRAM [--steps N] [--list]

The limit is on the address space (RLIMIT_AS). Two limits are looked for first, with words that are no command. Below one
the system can't load the program, which isn't the program's doing. From there to the other the program can't collect its
words: then it has to end with status 5 and write nothing. From that one on, in N steps up to a limit that suffices, `score`
is run on the examples `sensor` and `scheduler`, and on the generated project of 60 components. `--list` prints each limit
from which on the answer is another.
"""
import argparse, os, pathlib, resource, subprocess, sys, tempfile

TOP = pathlib.Path(__file__).resolve().parent.parent
PAGE = 4096
MOST = 1 << 30


def run(words, folder, limit):
    """The status, out and err, under a limit of so many bytes."""
    def limited():
        resource.setrlimit(resource.RLIMIT_AS, (limit, limit))
        resource.setrlimit(resource.RLIMIT_CORE, (0, 0))

    try:
        ran = subprocess.run(words, cwd=folder, capture_output=True, preexec_fn=limited, timeout=600)
    except (OSError, subprocess.SubprocessError) as fault:
        return None, b"", str(fault).encode()
    return ran.returncode, ran.stdout, ran.stderr


def least(fits, low, high):
    """The least multiple of a page that fits, where all above it do."""
    low, high = low // PAGE, high // PAGE
    while low < high:
        middle = (low + high) // 2
        low, high = (low, middle) if fits(middle * PAGE) else (middle + 1, high)
    return high * PAGE


def name_of(answer, right):
    if answer == right:
        return "right"
    if answer == (5, b"", b"out of memory\n"):
        return "out of memory"
    return f"WRONG: status {answer[0]}, {len(answer[1])} bytes on out, {answer[2][:100]!r} on err"


def tried(program, folder, starts, steps, all):
    """Counts of the answers, the least limit that suffices, and what was wrong."""
    words = [program, "score", "p.toml"]
    right = run(words, folder, MOST)
    if right[0] not in (0, 1):
        return {}, 0, [f"status {right[0]} with {MOST} bytes"]
    enough = least(lambda limit: run(words, folder, limit) == right, starts, MOST)
    step = max(PAGE, (enough - starts) // steps // PAGE * PAGE)
    counts, wrong, before = {}, [], None
    for limit in range(starts, enough + 4 * step, step):
        name = name_of(run(words, folder, limit), right)
        kind = "wrong" if name[0] == "W" else name
        counts[kind] = counts.get(kind, 0) + 1
        if name[0] == "W":
            wrong.append(f"{limit // 1024} KiB: {name}")
        if all and name != before:
            print(f"  from {limit // 1024} KiB: {name}")
        before = name
    return counts, enough, wrong


def started(program):
    """The least limit at which the program has its words, and how many answers below it were wrong."""
    words = [program, "draw", "p.toml"]
    usage = run(words, "/", MOST)
    starts = least(lambda limit: run(words, "/", limit) == usage, PAGE, MOST)
    loads = least(lambda limit: run(words, "/", limit)[0] in (2, 5), PAGE, starts)
    print(f"the system loads the program with {loads // 1024} KiB, and it has its words with {starts // 1024} KiB")
    wrong = [it for it in range(loads, starts, PAGE) if run(words, "/", it) != (5, b"", b"")]
    print(f"  between: {(starts - loads) // PAGE - len(wrong)} times status 5 and nothing written, {len(wrong)} times another answer")
    return starts, len(wrong)


def main():
    words = argparse.ArgumentParser()
    words.add_argument("program")
    words.add_argument("--steps", type=int, default=500)
    words.add_argument("--list", action="store_true")
    words = words.parse_args()
    program = os.path.abspath(words.program)
    starts, faults = started(program)
    with tempfile.TemporaryDirectory() as generated:
        subprocess.run([sys.executable, f"{TOP}/bench/generated.py", "60", generated], check=True)
        for name, folder in (("sensor", f"{TOP}/examples/sensor"), ("scheduler", f"{TOP}/examples/scheduler"), ("60 components", generated)):
            counts, enough, wrong = tried(program, folder, starts, words.steps, words.list)
            told = ", ".join(f"{count} {name}" for name, count in sorted(counts.items()))
            print(f"{name}: {told}; enough with {enough // 1024} KiB", flush=True)
            for it in wrong:
                print(f"  {it}")
            faults += len(wrong)
    return 0 if faults == 0 else 1


sys.exit(main())
