#!/usr/bin/env python3
"""Makes large projects of the first form, lists them with a built program, and prints the figures.

usage: bench/list-large.py [PROGRAM]        (PROGRAM: crates/coupling/out/coupling of this checkout)

Each project has some 23,000 functions, which is as much as the limit of control points allows: a chain through all
functions, so that every call is a row; functions that call a hundred others each; and a call of a function to itself,
which no path leaves. Of each shape there is one just above the limit too.
"""
import os, subprocess, sys, tempfile, time

import first_form

TOP = os.path.dirname(os.path.dirname(os.path.abspath(__file__)))


def measure(program, name, files):
    with tempfile.TemporaryDirectory() as folder:
        sizes = first_form.write(folder, files)
        start = time.time()
        ran = subprocess.Popen([program, "list", "p.toml"], cwd=folder, stdout=open(f"{folder}/out", "wb"), stderr=subprocess.PIPE)
        said = ran.stderr.read()
        _, status, usage = os.wait4(ran.pid, 0)
        took = time.time() - start
        rows = open(f"{folder}/out", "rb").read().count(b"\n") - 1
        print(f"{name:21} {sizes[0]:9} {sizes[1]:9} bytes  {rows:6} rows  status {os.waitstatus_to_exitcode(status)}  {took:6.2f} s  {usage.ru_maxrss // 1024:5} MB  {said.decode().strip()}")


def main():
    program = os.path.abspath(sys.argv[1]) if len(sys.argv) > 1 else f"{TOP}/crates/coupling/out/coupling"
    for name, files in first_form.shapes():
        measure(program, name, files)


main()
