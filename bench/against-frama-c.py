#!/usr/bin/env python3
"""How long `list` and `score` take beside Frama-C's Eva and From on the same files: the generated project of N components.

usage: against-frama-c.py PROGRAM [--components N] [--runs N]

For `list` Eva's entry is a function that calls each entry of the project with an argument of which nothing is known, for
`score` one that makes the calls of the two tests. Both programs answer more than a list of couplings, and neither answers
what the other does: the ratio says no more than which of them an engineer waits for. Where there is no Frama-C the script
installs Debian's package frama-c-base, if it may.
"""
import argparse, os, pathlib, shutil, subprocess, sys, tempfile, time

TOP = pathlib.Path(__file__).resolve().parent.parent
EACH = 20


def entry(name, head, arguments):
    """A C file with a function that calls each entry of the project with each of these arguments."""
    declared = "".join(f"int s1_{j}(int n);\n" for j in range(1, EACH + 1))
    calls = "".join(f"  s1_{j}({it});\n" for it in arguments for j in range(1, EACH + 1))
    return f"{declared}void {name}({head})\n{{\n{calls}}}\n"


def measured(words, folder, runs, ends=(0,)):
    """The least seconds, and the most memory in MB."""
    best, most = None, 0
    for _ in range(runs):
        before = time.time()
        with open(f"{folder}/out", "w") as out:
            ran = subprocess.run(["/usr/bin/time", "-f", "%M", "-o", f"{folder}/memory", *words], cwd=folder, stdout=out,
                                 stderr=subprocess.STDOUT, env={**os.environ, "PWD": folder})  # Frama-C goes by PWD
        seconds = time.time() - before
        if ran.returncode not in ends:
            sys.exit(f"{' '.join(words[:4])} ended with {ran.returncode}:\n{pathlib.Path(folder, 'out').read_text()[-500:]}")
        best = seconds if best is None else min(best, seconds)
        most = max(most, int(pathlib.Path(folder, "memory").read_text().split()[-1]))
    return best, most // 1024


def main():
    words = argparse.ArgumentParser()
    words.add_argument("program")
    words.add_argument("--components", type=int, default=60)
    words.add_argument("--runs", type=int, default=3)
    words = words.parse_args()
    program, n = os.path.abspath(words.program), words.components
    if shutil.which("frama-c") is None:
        subprocess.run(["apt-get", "install", "-y", "--no-install-recommends", "frama-c-base"], stdout=subprocess.DEVNULL)
    if shutil.which("frama-c") is None:
        sys.exit("there is no frama-c, and frama-c-base can't be installed")
    told = subprocess.run(["frama-c", "-version"], capture_output=True, text=True).stdout.strip()
    print(f"Frama-C {told}, {n} components\n\n| command | seconds | memory | Eva and From | memory | ratio of the seconds |\n|---|---|---|---|---|---|")
    with tempfile.TemporaryDirectory() as folder:
        subprocess.run([sys.executable, f"{TOP}/bench/generated.py", str(n), folder], check=True)
        files = sorted(it.name for it in pathlib.Path(folder).glob("c*.c"))
        for command, text in (("list", entry("whole", "int n", ["n"])), ("score", entry("whole", "void", [0, n]))):
            pathlib.Path(folder, "whole.c").write_text(text)
            own, memory = measured([program, command, "p.toml"], folder, words.runs, (0, 1))
            eva = ["frama-c", "-eva", "-eva-verbose", "0", "-deps", "-main", "whole", *files, "whole.c"]
            other, others = measured(eva, folder, words.runs)
            print(f"| `{command}` | {own:.3f} | {memory} MB | {other:.3f} | {others} MB | {own / other:.3f} |", flush=True)
    return 0


sys.exit(main())
