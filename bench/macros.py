#!/usr/bin/env python3
"""How long `check` takes on macros and includes that are hard in one way each: each row is to stay under one second.

usage: bench/macros.py [PROGRAM]        (PROGRAM: crates/coupling/out/coupling of this checkout)

A row shows the least of three runs, start and reading included, and what was answered. A last row shows that macros that
double end with M7, under a limit of 1 GB of memory. The status is 1 where a row takes a second or more or answers
otherwise than it should.
"""
import os, pathlib, resource, subprocess, sys, tempfile, time

TOP = pathlib.Path(__file__).resolve().parent.parent
LIMIT = 1_048_576
MEMORY = 1 << 30
PROJECT = 'format = 1\nentries = ["begin"]\n[[component]]\nname = "A"\nfiles = ["a.c"]\n[[component]]\nname = "B"\nfiles = ["b.c"]\n'
ACCEPTED = "ok components 2 files 2"


def filled(head, piece, tail=""):
    """The head, then the piece with a number in place of @ as often as fits, then the tail with that number."""
    parts, length, number = [head], len(head) + len(tail) + 8, 0
    while True:
        text = piece.replace("@@", f"{number + 1:x}").replace("@", f"{number:x}")
        if length + len(text) > LIMIT:
            return "".join(parts) + tail.replace("@", f"{number:x}")
        parts.append(text)
        length += len(text)
        number += 1


def cases():
    yield "100,000 directive lines", {"a.c": "#undef a\n" * 100_000}, ACCEPTED
    yield "100,000 definitions", {"a.c": "".join(f"#define a{n:x}\n" for n in range(50_000)) + "#undef a\n" * 25_000}, ACCEPTED
    yield "100,000 directive lines in comments", {"a.c": "/*\n#if\n*/\n" * 100_000}, ACCEPTED
    yield "directive lines in one comment", {"a.c": "/*\n" + "#undef a\n" * 100_000 + "*/\n"}, ACCEPTED
    yield "groups in groups", {"a.c": "#ifndef a\n" * 50_000 + "#endif\n" * 50_000}, ACCEPTED
    yield "1,000 includes", {"a.c": '#include "x.h"\n' * 1_000, "x.h": "int x;\n" * 60}, ACCEPTED
    nested = {f"{n}.h": f'#include "{n + 1}.h"\n' for n in range(1, 15)}
    yield "includes in includes", {"a.c": '#include "1.h"\n' * 62, **nested, "15.h": "int x;\n"}, ACCEPTED
    yield "the longest chain of macros", {"a.c": filled("", "#define a@ a@@\n", "int a0;\n")}, ACCEPTED
    yield "a macro in each token", {"a.c": "#define a a\n" + "int a;\n" * 100_000}, ACCEPTED
    double = "".join(f"#define a{n + 1} a{n} a{n}\n" for n in range(21))
    yield "macros that double 21 times", {"a.c": double + "a21\n"}, "a.c:22:1: directive M7"


def limited():
    resource.setrlimit(resource.RLIMIT_AS, (MEMORY, MEMORY))


def measured(program, folder):
    """The least seconds of three runs, and the answer."""
    least = None
    for _ in range(3):
        start = time.perf_counter()
        ran = subprocess.run([program, "check", "p.toml"], cwd=folder, capture_output=True, text=True, preexec_fn=limited)
        took = time.perf_counter() - start
        least = took if least is None else min(least, took)
    return least, (ran.stdout + ran.stderr).strip()


def main():
    program = os.path.abspath(sys.argv[1] if len(sys.argv) > 1 else TOP / "crates/coupling/out/coupling")
    print("| text | bytes | seconds | answer |\n|---|---|---|---|")
    failed = False
    for name, files, wanted in cases():
        with tempfile.TemporaryDirectory() as folder:
            for file, text in {**files, "b.c": "void begin(void) { }\n", "p.toml": PROJECT}.items():
                pathlib.Path(folder, file).write_text(text)
            seconds, answer = measured(program, folder)
        size = sum(map(len, files.values()))
        print(f"| {name} | {size:,} | {seconds:.3f} | `{answer}` |", flush=True)
        if seconds >= 1 or not answer.startswith(wanted):
            print(f"  {name}: asked under a second, and {wanted!r}")
            failed = True
    sys.exit(failed)


main()
