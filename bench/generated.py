#!/usr/bin/env python3
"""Writes the generated project of N components: the files p.toml and c1.c to cN.c.

usage: bench/generated.py N FOLDER        (N from 1 to 60; the folder is made where it isn't there)

Component i has 20 functions and 20 objects. Function j of each component but the last sets its object, calls function j
of the next component and reads that one's object. The entries are the functions of the first component; test T1 calls
them with 0, so that no call goes on, and test T2 with N, so that all do.
"""
import os, sys

EACH = 20


def project(n):
    entries = [f"s1_{j}" for j in range(1, EACH + 1)]
    lines = ["format = 1", "entries = [" + ", ".join(f'"{e}"' for e in entries) + "]"]
    for i in range(1, n + 1):
        lines += ["", "[[component]]", f'name = "C{i}"', f'files = ["c{i}.c"]']
    for name, argument in (("T1", 0), ("T2", n)):
        calls = ", ".join(f'["{e}", {argument}]' for e in entries)
        lines += ["", "[[test]]", f'name = "{name}"', "turns = 100000", f"calls = [{calls}]"]
    return "\n".join(lines) + "\n"


def c_file(i, n):
    lines = []
    for j in range(1, EACH + 1):
        if i == n:
            lines += [f"int v{i}_{j};", f"int s{i}_{j}(int n) {{ v{i}_{j} = n; return n; }}"]
            continue
        k = i + 1
        lines += [
            f"extern int v{k}_{j};",
            f"int v{i}_{j};",
            f"int s{k}_{j}(int n);",
            f"int s{i}_{j}(int n) {{ v{i}_{j} = n; if (n > 0) n = s{k}_{j}(n - 1) + v{k}_{j}; return n; }}",
        ]
    return "\n".join(lines) + "\n"


def main():
    if len(sys.argv) != 3 or not sys.argv[1].isdigit() or not 1 <= int(sys.argv[1]) <= 60:
        sys.exit("usage: bench/generated.py N FOLDER        (N from 1 to 60)")
    n, folder = int(sys.argv[1]), sys.argv[2]
    os.makedirs(folder, exist_ok=True)
    files = {"p.toml": project(n)} | {f"c{i}.c": c_file(i, n) for i in range(1, n + 1)}
    for name, text in files.items():
        with open(os.path.join(folder, name), "w", newline="") as file:
            file.write(text)


main()
