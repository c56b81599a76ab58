#!/usr/bin/env python3
"""How long runs of tests take, and how much memory: `score` on the generated project of 60 components, and `tests` on loops
and calls of millions of turns.

usage: bench/score-cost.py [PROGRAM]        (PROGRAM: crates/coupling/out/coupling of this checkout)

A row shows the least of three runs, start and reading included, the most memory of them, and how the test's run ended. With
gcc at hand it is followed by the seconds that the same C takes, compiled by `gcc -O0`.
"""
import os, pathlib, shutil, subprocess, sys, tempfile, time

TOP = pathlib.Path(__file__).resolve().parent.parent
sys.path.insert(0, f"{TOP}/bench")

PROJECT = """format = 1
entries = ["f"]

[[component]]
name = "A"
files = ["a.c"]

[[component]]
name = "B"
files = ["b.c"]

[[test]]
name = "T"
turns = 10000000
calls = [["f"]]
"""

# name, a.c, b.c; and the turns where they are others
TEXTS = [
    ("10,000 turns, 9,999 reads of one cell", "int v = 1;\nvoid f(void) { while (v) ; }\n", "", 10000),
    ("10,000,000 turns, 9,999,999 reads of one cell", "int v = 1;\nvoid f(void) { while (v) ; }\n", ""),
    ("a loop of 9,999,998 turns, three assignments of one operator each",
     "int x;\nint y;\nint z;\nvoid f(void) { for (int i = 0; i < 9999997; i++) { x = i + 1; y = x ^ 5; z = y & 255; } }\n", ""),
    ("4,999,998 calls of a small function in a loop",
     "int s;\nint add(int a, int b) { return a + b; }\nvoid f(void) { for (int i = 0; i < 4999998; i++) s = add(s & 7, i & 3); }\n", ""),
    ("4,999,998 calls of another component's function",
     "int s;\nint add(int a, int b);\nvoid f(void) { for (int i = 0; i < 4999998; i++) s = add(s & 7, i & 3); }\n",
     "int add(int a, int b) { return a + b; }\n"),
    ("9,999,998 reads of a cell that another component wrote",
     "int v;\nvoid g(void);\nvoid f(void) { v = 9999997; g(); }\n",
     "extern int v;\nvoid g(void) { for (int i = 0; i < v; i++) ; }\n"),
    ("an array of 1,000,000 cells written and read four times",
     "int a[1000000];\nlong s;\nvoid f(void) { for (int k = 0; k < 4; k++) { for (int i = 0; i < 1000000; i++) a[i] = i ^ k;"
     " for (int i = 0; i < 1000000; i++) s += a[i]; } }\n", ""),
]


def measured(words, folder):
    best, most, told = None, 0, ""
    for _ in range(3):
        before = time.time()
        ran = subprocess.run(["/usr/bin/time", "-f", "%M", "-o", f"{folder}/memory", *words], cwd=folder, capture_output=True, text=True)
        seconds = time.time() - before
        best = seconds if best is None else min(best, seconds)
        most = max(most, int(pathlib.Path(f"{folder}/memory").read_text().split()[-1]))
        told = ran.stdout or ran.stderr
    return best, most / 1024, told


def native(folder, told):
    """The seconds of gcc's program, where the run ends of itself."""
    if shutil.which("gcc") is None or not told.endswith("done\n"):
        return "-"
    pathlib.Path(f"{folder}/main.c").write_text("void f(void);\nint main(void) { f(); return 0; }\n")
    subprocess.run(["gcc", "-O0", "-w", "-o", f"{folder}/main", "a.c", "b.c", "main.c"], cwd=folder, check=True)
    best = None
    for _ in range(3):
        before = time.time()
        subprocess.run([f"{folder}/main"], check=True)
        seconds = time.time() - before
        best = seconds if best is None else min(best, seconds)
    return f"{best:.3f}"


def main():
    program = os.path.abspath(sys.argv[1] if len(sys.argv) > 1 else f"{TOP}/crates/coupling/out/coupling")
    print("| run | seconds | memory | answer | `gcc -O0` |\n|---|---|---|---|---|")
    with tempfile.TemporaryDirectory() as folder:
        subprocess.run([sys.executable, f"{TOP}/bench/generated.py", "60", folder], check=True)
        seconds, memory, told = measured([program, "score", "p.toml"], folder)
        print(f"| `score` on the generated project of 60 components | {seconds:.3f} | {memory:.1f} MB | `{told.splitlines()[-1]}` | |", flush=True)
        seconds, memory, told = measured([program, "gen", "60"], folder)
        print(f"| `gen 60` | {seconds:.3f} | {memory:.1f} MB | `{told.splitlines()[0]}` | |", flush=True)
    for name, a, b, *turns in TEXTS:
        project = PROJECT.replace("10000000", str(turns[0])) if turns else PROJECT
        with tempfile.TemporaryDirectory() as folder:
            for file, text in (("p.toml", project), ("a.c", a), ("b.c", b)):
                pathlib.Path(f"{folder}/{file}").write_text(text)
            seconds, memory, told = measured([program, "tests", "p.toml"], folder)
            print(f"| {name} | {seconds:.3f} | {memory:.1f} MB | `{told.splitlines()[-1]}` | {native(folder, told)} |", flush=True)


main()
