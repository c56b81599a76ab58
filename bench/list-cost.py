#!/usr/bin/env python3
"""How long `list` takes, and how much memory: on the generated project of 60 components, on a project of 64 components of
usual C, on the most points-to facts and the most rows that there may be and just above, and on texts that are hard in one
way each.

usage: bench/list-cost.py [PROGRAM]        (PROGRAM: crates/coupling/out/coupling of this checkout)

A row shows the least of five runs (of one, where it takes over five seconds), start and reading included, the most memory
of them, and what was answered: the number of rows, or the line that refuses.
"""
import os, pathlib, subprocess, sys, tempfile, time

TOP = pathlib.Path(__file__).resolve().parent.parent
PROJECT = """format = 1
entries = [{entries}]
"""
COMPONENT = """
[[component]]
name = "{name}"
files = ["{file}"]
"""

# A component of usual C: a ring buffer, a table of handlers, a state machine over shared counters.
HEADER = """#ifndef SHARED_H
#define SHARED_H
struct message { int kind; unsigned int length; unsigned char data[16]; };
struct ring { struct message items[8]; unsigned int head, tail; };
enum phase { PHASE_IDLE, PHASE_BUSY, PHASE_DONE };
#define MASK 7u
"""
DECLARED = """extern struct ring ring@;
extern int errors@;
int put@(const struct message *m);
int take@(struct message *m);
void step@(int input);
void on@(void (*handler)(int));
"""
BODY = """#include "shared.h"

struct ring ring@;
int errors@;
static enum phase phase@;
static void (*handlers@[2])(int);

void on@(void (*handler)(int))
{
  handlers@[errors@ & 1] = handler;
}

static void failed@(int code)
{
  errors@ += code;
  if (handlers@[0] != 0)
    handlers@[0](code);
}

int put@(const struct message *m)
{
  unsigned int next = (ring@.head + 1u) & MASK;
  if (next == ring@.tail) {
    failed@(1);
    return 0;
  }
  ring@.items[ring@.head] = *m;
  ring@.head = next;
  return 1;
}

int take@(struct message *m)
{
  if (ring@.head == ring@.tail)
    return 0;
  *m = ring@.items[ring@.tail];
  ring@.tail = (ring@.tail + 1u) & MASK;
  return 1;
}
"""
PIECE = """
static int work@_#(int input)
{
  struct message m;
  int sum = 0;
  m.kind = input;
  m.length = 0;
  for (int i = 0; i < 16; i++) {
    m.data[i] = (unsigned char)(input >> (i & 3));
    sum += m.data[i];
  }
  switch (phase@) {
  case PHASE_IDLE: phase@ = PHASE_BUSY; break;
  case PHASE_BUSY: phase@ = sum > 100 ? PHASE_DONE : PHASE_BUSY; break;
  default: phase@ = PHASE_IDLE;
  }
  if (sum & 1) {
    put%(&m);
    sum += errors%;
  } else if (take%(&m)) {
    sum -= m.kind;
  }
  while (sum > 4096)
    sum /= 2;
  return sum;
}
"""
TAIL = """
void step@(int input)
{
  on%(failed@);
CALLS  errors@ = input;
}
"""


def usual(components, pieces):
    """So many components, each of which works on the ring and the counter of the next one."""
    files = {"shared.h": HEADER + "".join(DECLARED.replace("@", str(k)) for k in range(components)) + "#endif\n"}
    for k in range(components):
        other = str((k + 1) % components)
        text = BODY + "".join(PIECE.replace("#", str(p)) for p in range(pieces))
        text += TAIL.replace("CALLS", "".join(f"  input += work@_{p}(input);\n" for p in range(pieces)))
        files[f"c{k}.c"] = text.replace("@", str(k)).replace("%", other)
    calls = "".join(f"  step{k}(input);\n" for k in range(components))
    files["c0.c"] += f"\nvoid start(int input)\n{{\n{calls}}}\n"
    project = PROJECT.format(entries='"start"') + "".join(COMPONENT.format(name=f"C{k}", file=f"c{k}.c") for k in range(components))
    return project, files


def one(text, entry="f"):
    return PROJECT.format(entries=f'"{entry}"') + COMPONENT.format(name="A", file="a.c"), {"a.c": text}


def two(a, b):
    return PROJECT.format(entries='"f"') + COMPONENT.format(name="A", file="a.c") + COMPONENT.format(name="B", file="b.c"), {"a.c": a, "b.c": b}


def facts(n):
    """n objects whose addresses go down a chain of n pointers: 3 n n facts."""
    lines = [f"int o{i};" for i in range(1, n + 1)] + [f"int *p{i};" for i in range(1, n + 1)]
    body = [f"p{k} = p{k - 1};" for k in range(2, n + 1, 2)] + [f"p{k} = p{k - 1};" for k in range(n if n % 2 else n - 1, 2, -2)]
    body += [f"p1 = &o{i};" for i in range(1, n + 1)]
    return one("\n".join(lines) + "\nvoid f(void) {\n" + "\n".join(body) + "\n}\n")


def sparse(pointers, apart):
    """Each pointer may point at a few objects that lie far apart among all: few facts in each block of 512."""
    filler = "".join(f"int x%d_{i};\n" for i in range(apart))
    lines = "".join(f"int o{k};\n" + filler.replace("%d", str(k)) for k in range(32))
    lines += "".join(f"int *p{i};\n" for i in range(pointers))
    body = "\n".join(f"p0 = &o{k};" for k in range(32)) + "\n" + "\n".join(f"p{i} = p{i - 1};" for i in range(1, pointers))
    return one(f"{lines}void f(void) {{\n{body}\n}}\n")


def rows(n):
    """n stores of an array in one component and n reads of it in another: n (n + 1) + 1 rows."""
    a = "int v[2];\nvoid g(void);\nvoid f(void) {\n" + "v[0] = 1;\n" * n + "g(); }\n"
    b = "extern int v[2];\nint w;\nvoid g(void) {\n" + "w = v[0];\n" * n + "}\n"
    return two(a, b)


def generated():
    with tempfile.TemporaryDirectory() as folder:
        subprocess.run([sys.executable, TOP / "bench/generated.py", "60", folder], check=True)
        read = {path.name: path.read_text() for path in pathlib.Path(folder).iterdir()}
    project = read.pop("p.toml")
    return project, read


def run(program, folder):
    start = time.time()
    ran = subprocess.Popen([program, "list", "p.toml"], cwd=folder, stdout=open(f"{folder}/out", "wb"), stderr=subprocess.PIPE)
    said = ran.stderr.read().decode().strip()
    _, status, usage = os.wait4(ran.pid, 0)
    took = time.time() - start
    count = open(f"{folder}/out", "rb").read().count(b"\n")
    return took, usage.ru_maxrss // 1024, said or f"{count - 1} rows"


def measure(program, name, made):
    project, files = made
    with tempfile.TemporaryDirectory() as folder:
        for file, text in {**files, "p.toml": project}.items():
            with open(f"{folder}/{file}", "w") as it:
                it.write(text)
        ran = [run(program, folder)]
        while ran[-1][0] < 5 and len(ran) < 5:
            ran.append(run(program, folder))
        size = sum(len(text) for text in files.values())
        lines = sum(text.count("\n") for text in files.values())
    print(f"| {name} | {size:,} | {lines:,} | {min(it[0] for it in ran):.3f} | {max(it[1] for it in ran)} MB | `{ran[0][2]}` |", flush=True)


def main():
    program = os.path.abspath(sys.argv[1]) if len(sys.argv) > 1 else f"{TOP}/crates/coupling/out/coupling"
    print("| text | bytes | lines | seconds | memory | answer |\n|---|---|---|---|---|---|")
    measure(program, "the generated project of 60 components", generated())
    measure(program, "64 components of usual C", usual(64, 16))
    measure(program, "the most facts", facts(1182))
    measure(program, "more facts than there may be", facts(1183))
    measure(program, "facts far apart", sparse(6000, 700))
    measure(program, "199,363 rows", rows(446))
    measure(program, "more rows than there may be", rows(448))
    measure(program, "one function of 80,000 points", one("int v; int w;\nvoid f(int n) {\n" + "v = n; w = v;\nif (n) v++;\n" * 4000 + "}\n"))
    measure(program, "the most points", one("void f(void) {" + ";" * 131_069 + "}\n"))
    measure(program, "more points than there may be", one("void f(void) {" + ";" * 131_070 + "}\n"))


main()
