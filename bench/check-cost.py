#!/usr/bin/env python3
"""How long `check` takes, and how much memory: on a C file of nearly 1 MiB of usual shape, on the generated project of 60
components, and on texts of nearly 1 MiB that are hard in one way each.

usage: bench/check-cost.py [PROGRAM]        (PROGRAM: crates/coupling/out/coupling of this checkout)

A row shows the least of five runs, start and reading included, the most memory of them, and what was answered. Where `gcc`
is there and takes the file, `gcc -std=c17 -fsyntax-only` runs on the same files in the same go, for the ratio.
"""
import os, pathlib, resource, shutil, subprocess, sys, tempfile, time

TOP = pathlib.Path(__file__).resolve().parent.parent
LIMIT = 1_048_576
HEAD = """enum kind { KIND_NONE, KIND_RAW = 2, KIND_CHECKED };
struct sample { int value; enum kind kind; const char *name; short history[8]; };
static const unsigned int limits[4] = { 0x10u, 077, 'a', '\\n' };
void report(const char *text, int value) { if (value < 0) text = 0; (void)text; }
"""
PIECE = """/* Sums the samples of channel @. */
static struct sample last@ = { 3, KIND_RAW, "channel @", { 1, 2, 3 } };
static int seen@;

int sum_of@(const struct sample *first, int count)
{
    int sum = 0; // of all so far
    for (int i = 0; i < count; ++i) {
        if (first[i].kind != KIND_NONE && first->value <= 1000)
            sum += first[i].value << 2;
        else
            continue;
    }
    switch (first->kind) {
    case KIND_NONE: seen@ = 0; break;
    case KIND_RAW: case KIND_CHECKED: seen@ += sum & limits[1]; break;
    default: last@.value = sum;
    }
    while (sum > 4096) {
        sum /= 2;
        last@.history[sum & 7] = (short)sum;
    }
    report("sum of channel @", sum);
    return sum >= 0 ? sum : -sum;
}

"""


def repeated(head, piece, tail="", size=LIMIT):
    """The head, then the piece with a number in place of @ as often as fits, then the tail."""
    parts, length, number = [head], len(head) + len(tail), 0
    while True:
        text = piece.replace("@", str(number))
        if length + len(text) > size:
            return "".join(parts) + tail
        parts.append(text)
        length += len(text)
        number += 1


TEXTS = {
    "usual C": repeated(HEAD, PIECE),
    "one expression": repeated("int a;\nvoid f(void) { a = 1", " + a", "; }\n"),
    "one list of values": repeated("int a[] = { 0", ", 1", " };\n"),
    "one zero for a million": "struct s { char a[1024]; } x[1024] = {0};\n",
    "declarations of one name": repeated("", "extern int a[];\n"),
    "names": repeated("", "int a@;\n"),
    "locals": repeated("void f(void) {\n", "int a@ = 1;\n", "}\n"),
    "steps of one name": repeated("void f(int a) {\n", "a++;\n", "}\n"),
    "assignments inside": repeated("void f(int a) {\n", "if ((a = 1)) ;\n", "}\n"),
    "parameters": repeated("void f(int p", ", int p@", ");\n"),
    "arguments": repeated("int a; void f(void); void g(void) { f(a", ", a", "); }\n"),
    "labels": repeated("void f(int a) { switch (a) {\n", "case @: ;\n", "} }\n"),
    "structs": repeated("", "struct s@ { int a; };\n"),
    "structs in structs": repeated("struct s0 { char a; };\n", "struct t@ { struct s0 a, b; };\n"),
    "unnamed structs": repeated("", "struct { int a@; } x@;\n"),
    "members": repeated("struct s {\n", "int a@;\n", "};\n"),
    "accesses": repeated("struct s { int a; } x; void f(void) {\n", "x.a = x.a;\n", "}\n"),
    "types": repeated("int a[1048576];\n", "int (*p@)[@ + 1];\n"),
    "enumeration constants": repeated("enum {\n", "A@,\n", "};\n"),
    "strings": repeated("const char *p[] = {\n", '"a@",\n', "};\n"),
    "blocks": repeated("void f(void) {\n", "{ int a; a = 1; }\n", "}\n"),
}


def measured(words, folder):
    """The least seconds of five runs, the most megabytes, and the last answer."""
    least, line = None, ""
    for _ in range(5):
        start = time.perf_counter()
        ran = subprocess.run(words, cwd=folder, capture_output=True, text=True, errors="replace")
        took = time.perf_counter() - start
        least = took if least is None else min(least, took)
        line = (ran.stdout + ran.stderr).strip().splitlines()
    megabytes = resource.getrusage(resource.RUSAGE_CHILDREN).ru_maxrss / 1024
    return least, megabytes, line[0] if line else "", ran.returncode


def row(program, name, files, project):
    with tempfile.TemporaryDirectory() as folder:
        for file, text in files.items():
            pathlib.Path(folder, file).write_text(text)
        pathlib.Path(folder, "p.toml").write_text(project)
        # A child of its own for each figure of memory, since the system keeps the greatest of all children.
        report = subprocess.run([sys.executable, __file__, "--one", folder, program, "check", "p.toml"], capture_output=True, text=True)
        seconds, megabytes, answer = report.stdout.rstrip("\n").split("\t")
        ratio = ""
        if shutil.which("gcc"):
            least, _, _, status = measured(["gcc", "-std=c17", "-w", "-fsyntax-only", *[f for f in files if f.endswith(".c")]], folder)
            ratio = f"{float(seconds) / least:.2f}" if status == 0 else "refuses"
        size = sum(map(len, files.values()))
        print(f"| {name} | {size:,} | {float(seconds):.3f} | {megabytes} MB | {ratio} | `{answer}` |", flush=True)


def main():
    if sys.argv[1:2] == ["--one"]:
        seconds, megabytes, answer, _ = measured(sys.argv[3:], sys.argv[2])
        print(f"{seconds}\t{megabytes:.0f}\t{answer}")
        return
    program = os.path.abspath(sys.argv[1] if len(sys.argv) > 1 else TOP / "crates/coupling/out/coupling")
    project = 'format = 1\nentries = ["begin"]\n[[component]]\nname = "A"\nfiles = ["a.c"]\n[[component]]\nname = "B"\nfiles = ["b.c"]\n'
    print("| text | bytes | seconds | memory | of gcc's time | answer |\n|---|---|---|---|---|---|")
    for name, text in TEXTS.items():
        row(program, name, {"a.c": text, "b.c": "void begin(void) { }\n"}, project)
    with tempfile.TemporaryDirectory() as folder:
        subprocess.run([sys.executable, str(TOP / "bench/generated.py"), "60", folder], check=True)
        files = {path.name: path.read_text() for path in pathlib.Path(folder).glob("*.c")}
        row(program, "the generated project of 60", files, pathlib.Path(folder, "p.toml").read_text())


main()
