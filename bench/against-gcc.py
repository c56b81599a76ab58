#!/usr/bin/env python3
"""Runs random C programs without undefined behaviour in the interpreter and, compiled by gcc, on the machine.

Each program has a function `run` that works on its objects: integers of all kinds, arrays, structs, pointers, function
pointers, loops, switches. After each call of `run` a function `digest` makes one number of all objects. gcc's program
prints these numbers; they are arguments of the project's tests, whose function `check` divides by zero where the number
is another. So a test ends `done` exactly where the interpreter has the same objects as gcc's program after each call.

usage: against-gcc.py PROGRAM [--count N] [--seed N] [--keep FOLDER] [--compiler gcc]
"""
import argparse, os, random, subprocess, sys, tempfile

KINDS = ["_Bool", "char", "signed char", "unsigned char", "short", "unsigned short", "int", "unsigned", "long",
         "unsigned long", "long long", "unsigned long long"]
CALLS = 3


class Maker:
    def __init__(self, seed):
        self.r = random.Random(seed)
        self.lines = []
        self.scalars = []       # names of integer objects that are lvalues here
        self.arrays = []        # (name, mask of the index)
        self.functions = []     # (name, number of parameters, has a result)
        self.depth = 0
        self.loops = 0
        self.next = 0

    def name(self, stem):
        self.next += 1
        return f"{stem}{self.next}"

    def kind(self):
        return self.r.choice(KINDS)

    # an lvalue of integer type
    def lvalue(self, depth=1):
        r = self.r
        if self.arrays and r.random() < 0.35:
            array, mask = r.choice(self.arrays)
            return f"{array}[{self.index(mask, depth)}]"
        if self.structs and r.random() < 0.35:
            return r.choice(self.structs)(self, depth)
        return r.choice(self.scalars)

    def index(self, mask, depth):
        if depth <= 0 or self.r.random() < 0.5:
            return str(self.r.randint(0, mask))
        return f"(unsigned)({self.value(depth - 1)}) & {mask}u"

    def literal(self):
        r = self.r
        return r.choice([
            str(r.randint(0, 9)), str(r.randint(0, 70000)), f"{r.randint(0, 255)}u", f"0x{r.randint(0, 2 ** 31):x}",
            f"{r.randint(0, 2 ** 40)}L", f"{r.randint(0, 2 ** 33)}ul", f"'{r.choice('abzA09 ')}'", "'\\n'", "'\\377'"])

    # an integer expression without a call or an assignment
    def value(self, depth=3):
        r = self.r
        if depth <= 0:
            return self.literal() if r.random() < 0.4 else self.lvalue(0)
        a = lambda: self.value(depth - 1)
        pick = r.random()
        if pick < 0.12:
            return f"(int)((unsigned)({a()}) {r.choice('+-*')} (unsigned)({a()}))"
        if pick < 0.24:
            return f"((unsigned long)({a()}) {r.choice('+-*')} (unsigned long)({a()}))"
        if pick < 0.30:
            return f"((({a()}) & 0xffff) {r.choice('/%')} ((({a()}) & 0xff) + 1))"
        if pick < 0.36:
            return f"((long)({a()}) {r.choice(['&', '|', '^'])} ({a()}))"
        if pick < 0.42:
            return f"((unsigned)({a()}) << (({a()}) & 31))"
        if pick < 0.47:
            return f"((int)({a()}) >> (({a()}) & 31))"
        if pick < 0.58:
            return f"(({a()}) {r.choice(['<', '<=', '>', '>=', '==', '!='])} ({a()}))"
        if pick < 0.66:
            return f"(({a()}) {r.choice(['&&', '||'])} ({a()}))"
        if pick < 0.72:
            return f"(({a()}) ? ({a()}) : ({a()}))"
        if pick < 0.78:
            return f"(({self.kind()})({a()}))"
        if pick < 0.83:
            return f"({r.choice(['!', '~'])}({a()}))"
        if pick < 0.87:
            return f"(-(unsigned)({a()}))"
        if pick < 0.90:
            return f"sizeof({r.choice(self.types)})"
        if pick < 0.93:
            return f"(+(short)({a()}))"
        return self.lvalue(depth - 1)

    def put(self, text):
        self.lines.append("  " * self.depth + text)

    def call(self):
        name, count, _ = self.r.choice(self.functions)
        return f"{name}({', '.join(self.value(2) for _ in range(count))})"

    def assignment(self):
        r = self.r
        pick = r.random()
        if pick < 0.45:
            self.put(f"{self.lvalue()} = {self.value()};")
        elif pick < 0.60:
            self.put(f"{self.lvalue()} {r.choice(['&=', '|=', '^='])} {self.value(2)};")
        elif pick < 0.70:
            self.put(f"{r.choice(self.wide)} {r.choice(['+=', '-=', '*='])} (unsigned)({self.value(2)});")
        elif pick < 0.80:
            self.put(f"{r.choice(self.wide)}{r.choice(['++', '--'])};")
        elif pick < 0.88:
            self.put(f"{r.choice(['++', '--'])}{r.choice(self.wide)};")
        elif pick < 0.94 and self.functions:
            with_result = [f for f in self.functions if f[2]]
            if with_result:
                name, count, _ = r.choice(with_result)
                self.put(f"{r.choice(self.wide)} = {name}({', '.join(self.value(2) for _ in range(count))});")
        elif self.functions:
            self.put(f"{self.call()};")

    def pointers(self):
        r = self.r
        p = self.name("p")
        array, mask = r.choice(self.longs)
        self.put("{")
        self.depth += 1
        at = r.randint(0, mask)
        self.put(f"long *{p} = {r.choice([f'&{array}[{at}]', f'{array} + {at}', f'{at} + {array}'])};")
        for _ in range(r.randint(1, 4)):
            pick = r.random()
            if pick < 0.3:
                self.put(f"*{p} = {self.value(2)};")
            elif pick < 0.45:
                self.put(f"if ({p} < &{array}[{mask}]) {p}++;")
            elif pick < 0.6:
                self.put(f"if ({p} > {array}) --{p};")
            elif pick < 0.75:
                self.put(f"{r.choice(self.wide)} = (unsigned)({p} - {array});")
            elif pick < 0.9:
                self.put(f"{r.choice(self.wide)} = (unsigned)({p}[0] == *{array});")
            else:
                self.put(f"{p} = {array} + ((unsigned)({self.value(1)}) & {mask}u);")
        self.put(f"swap({p}, &{array}[{r.randint(0, mask)}]);")
        self.depth -= 1
        self.put("}")

    def block(self, count):
        self.put("{")
        self.depth += 1
        kept = list(self.scalars), list(self.arrays), list(self.wide)
        for _ in range(self.r.randint(0, 2)):
            self.local()
        for _ in range(count):
            self.statement()
        self.scalars, self.arrays, self.wide = kept
        self.depth -= 1
        self.put("}")

    def local(self):
        r = self.r
        name = self.name("l")
        pick = r.random()
        if pick < 0.6:
            kind = self.kind()
            self.put(f"{kind} {name} = {self.value(2)};")
            self.scalars.append(name)
        elif pick < 0.8:
            size = r.choice([2, 4, 8])
            self.put(f"{self.kind()} {name}[{size}] = {{ {', '.join(self.value(1) for _ in range(r.randint(1, size)))} }};")
            self.arrays.append((name, size - 1))
        else:
            self.put(f"struct pair {name} = {{ {self.value(1)}, {{ {self.value(1)} }} }};")
            self.scalars.append(f"{name}.first")
            self.arrays.append((f"{name}.rest", 3))
            if r.random() < 0.5:
                self.put(f"{r.choice(['one', 'many[1]', 'many[2]'])} = {name};")

    def statement(self):
        r = self.r
        if self.depth > 5:
            return self.assignment()
        pick = r.random()
        if pick < 0.5:
            self.assignment()
        elif pick < 0.58:
            self.pointers()
        elif pick < 0.70:
            self.put(f"if ({self.value(2)})")
            self.block(r.randint(1, 3))
            if r.random() < 0.5:
                self.put("else")
                self.block(r.randint(1, 2))
        elif pick < 0.82 and self.loops < 2:
            self.loop()
        elif pick < 0.90:
            self.switch()
        elif pick < 0.95 and self.in_loop:
            self.put(f"if ({self.value(1)}) {r.choice(['break', 'continue'])};")
        else:
            self.block(r.randint(1, 3))

    def loop(self):
        r = self.r
        counter = self.name("i")
        most = r.randint(1, 6)
        kept, self.in_loop = self.in_loop, True
        self.loops += 1
        pick = r.random()
        if pick < 0.5:
            self.put(f"for (int {counter} = 0; {counter} < {most}; {counter}++)")
            self.block(r.randint(1, 3))
        elif pick < 0.6:
            self.put(f"for (int {counter} = 0, {counter}b = 9; {counter} < {most}; {counter}++, {counter}b--)")
            self.block(r.randint(1, 2))
        else:
            self.put("{")
            self.depth += 1
            self.put(f"int {counter} = 0;")
            if pick < 0.8:
                self.put(f"while ({counter}++ < {most})" if False else f"while ({counter} < {most})")
                self.put("{")
                self.depth += 1
                self.put(f"{counter} = {counter} + 1;")
                self.block(r.randint(1, 3))
                self.depth -= 1
                self.put("}")
            else:
                self.put("do {")
                self.depth += 1
                self.put(f"{counter}++;")
                self.block(r.randint(1, 3))
                self.depth -= 1
                self.put(f"}} while ({counter} < {most});")
            self.depth -= 1
            self.put("}")
        self.loops -= 1
        self.in_loop = kept

    def switch(self):
        r = self.r
        kept, self.in_loop = self.in_loop, False
        self.put(f"switch (({self.value(2)}) & 7) {{")
        labels = r.sample(range(8), r.randint(1, 4))
        if r.random() < 0.6:
            labels.insert(r.randint(0, len(labels)), None)
        for label in labels:
            self.put("default:" if label is None else f"case {label}:")
            self.depth += 1
            for _ in range(r.randint(0, 2)):
                self.assignment()
            if r.random() < 0.7:
                self.put("break;")
            self.depth -= 1
        self.put("}")
        self.in_loop = kept

    def function(self, number):
        r = self.r
        count = r.randint(0, 3)
        has_result = r.random() < 0.6
        formals = [(self.kind(), self.name("a")) for _ in range(count)]
        words = ", ".join(f"{k} {n}" for k, n in formals) or "void"
        kind = self.kind() if has_result else "void"
        name = f"f{number}"
        kept = list(self.scalars), list(self.arrays), list(self.wide)
        self.scalars += [n for _, n in formals]
        self.in_loop = False
        self.put(f"static {kind} {name}({words})")
        self.put("{")
        self.depth += 1
        for _ in range(r.randint(0, 3)):
            self.local()
        for _ in range(r.randint(2, 6)):
            self.statement()
        if has_result:
            if r.random() < 0.4:
                self.put(f"if ({self.value(2)}) return {self.value(2)};")
            self.put(f"return {self.value(2)};")
        self.depth -= 1
        self.put("}")
        self.scalars, self.arrays, self.wide = kept
        self.functions.append((name, count, has_result))

    def program(self):
        r = self.r
        self.structs = []
        self.in_loop = False
        self.wide = []
        self.longs = [("row", 7), ("col", 3)]
        self.types = ["int", "struct pair", "row", "unsigned char", "long *", "many", "one.rest"]
        self.put("struct pair { short first; unsigned char rest[4]; };")
        self.put("struct node { long at; struct pair inner; unsigned *link; };")
        digest = []
        for kind in KINDS:
            name = self.name("g")
            start = r.choice(["", f" = {r.randint(0, 100)}", f" = {r.randint(0, 100)} * 2 - 1"])
            self.put(f"{r.choice(['static ', ''])}{kind} {name}{start};")
            self.scalars.append(name)
            digest.append(name)
            if kind in ("unsigned", "unsigned long", "unsigned long long", "unsigned char", "unsigned short"):
                self.wide.append(name)
        self.put(f"long row[8] = {{ {', '.join(str(r.randint(0, 99)) for _ in range(r.randint(1, 8)))} }};")
        self.put("static long col[4];")
        self.put('static char text[6] = "abc";')
        self.put('static const char *word = "xyz";')
        self.put("short grid[2][4] = { { 1, 2 }, { 3 } };")
        self.put("struct pair one = { 5, { 1, 2, 3 } };")
        self.put("struct pair many[4] = { { 1 }, { 2, { 7 } } };")
        self.put("static unsigned end;")
        self.put("struct node top = { 3, { 4, { 5, 6 } }, &end };")
        self.wide.append("end")
        self.arrays += [("row", 7), ("col", 3), ("text", 5), ("grid[1]", 3), ("one.rest", 3), ("many[3].rest", 3),
                        ("top.inner.rest", 3)]
        self.scalars += ["one.first", "top.at", "top.inner.first", "many[0].first", "*top.link"]
        self.structs = [lambda m, d: f"many[{m.index(3, d)}].first", lambda m, d: f"(&top)->inner.rest[{m.index(3, d)}]",
                        lambda m, d: f"grid[{m.index(1, d)}][{m.index(3, d)}]", lambda m, d: f"(&many[{m.index(3, d)}])->rest[1]",
                        lambda m, d: f"(*&one).first"]
        self.put("static void swap(long *a, long *b)")
        self.put("{ long kept = *a; *a = *b; *b = kept; }")
        for number in range(r.randint(1, 4)):
            self.function(number)
        self.put("static int twice(int n) { return (int)((unsigned)n * 2u); }")
        self.put("static int less(int n) { return (int)((unsigned)n - 1u); }")
        self.put("static int (*table[2])(int) = { twice, less };")
        self.put("static int (*chosen)(int);")
        self.functions += [("table[1]", 1, True), ("(*table[0])", 1, True)]
        self.put("void run(int seed)")
        self.put("{")
        self.depth += 1
        self.put("static unsigned calls;")
        self.put("calls++;")
        self.scalars += ["seed", "calls"]
        self.put(f"chosen = table[(unsigned)seed & 1u];")
        self.put(f"{self.wide[0]} = (unsigned)chosen(seed);")
        self.put("if (word[1] == 'y' && text[3] == 0 && chosen != 0) end++;")
        for _ in range(r.randint(3, 8)):
            self.statement()
        self.put("if (chosen == less) top.link = &end; else end = end + calls;")
        self.depth -= 1
        self.put("}")
        self.put("static unsigned long add(unsigned long h, unsigned long v) { return (h ^ v) * 1099511628211ul; }")
        self.put("static unsigned long digest(void)")
        self.put("{")
        self.depth += 1
        self.put("unsigned long h = 14695981039346656037ul;")
        for name in digest + ["one.first", "top.at", "top.inner.first", "end"]:
            self.put(f"h = add(h, (unsigned long){name});")
        for name, size in (("row", 8), ("col", 4), ("text", 6), ("grid[0]", 4), ("grid[1]", 4), ("one.rest", 4),
                           ("top.inner.rest", 4)):
            self.put(f"for (int i = 0; i < {size}; i++) h = add(h, (unsigned long){name}[i]);")
        self.put("for (int i = 0; i < 4; i++) {")
        self.put("  h = add(h, (unsigned long)many[i].first);")
        self.put("  for (int k = 0; k < 4; k++) h = add(h, many[i].rest[k]);")
        self.put("}")
        self.put("return h;")
        self.depth -= 1
        self.put("}")
        self.put("static int zero;")
        self.put("void check(unsigned low, unsigned high)")
        self.put("{ unsigned long h = digest(); if ((unsigned)h != low || (unsigned)(h >> 32) != high) zero = 1 / zero; }")
        return "\n".join(self.lines) + "\n"


MAIN = """
int printf(const char *, ...);
int main(void)
{
  for (int i = 1; i <= %d; i++) { run(i); printf("%%lu\\n", digest()); }
  return 0;
}
""" % CALLS

PROJECT = """format = 1
entries = ["run", "check"]

[[component]]
name = "A"
files = ["a.c"]

[[test]]
name = "T"
turns = 10000000
calls = [%s]
"""


def judge(program, compiler, folder, seed):
    text = Maker(seed).program()
    with open(f"{folder}/a.c", "w") as it:
        it.write(text)
    with open(f"{folder}/main.c", "w") as it:
        it.write(text + MAIN)
    built = subprocess.run([compiler, "-O0", "-w", "-fwrapv", "-fno-strict-aliasing", "-o", f"{folder}/main", f"{folder}/main.c"],
                           capture_output=True, text=True)
    if built.returncode:
        return f"the compiler refuses it: {built.stderr.splitlines()[0]}"
    try:
        ran = subprocess.run([f"{folder}/main"], capture_output=True, text=True, timeout=20)
    except subprocess.TimeoutExpired:
        return None
    if ran.returncode:
        return f"gcc's program ended with {ran.returncode}"
    calls = []
    for i, line in enumerate(ran.stdout.split(), 1):
        calls += [f'["run", {i}]', f'["check", {int(line) & 0xffffffff}, {int(line) >> 32}]']
    with open(f"{folder}/p.toml", "w") as it:
        it.write(PROJECT % ", ".join(calls))
    told = subprocess.run([program, "tests", "p.toml"], cwd=folder, capture_output=True, text=True, timeout=120)
    if told.stdout != "test,requirement,row,end\nT,-,-,done\n":
        return f"{told.stdout.splitlines()[-1:]} {told.stderr.strip()} status {told.returncode}"
    return None


def main():
    words = argparse.ArgumentParser()
    words.add_argument("program")
    words.add_argument("--count", type=int, default=2000)
    words.add_argument("--seed", type=int, default=1)
    words.add_argument("--keep", default="")
    words.add_argument("--compiler", default="gcc")
    words = words.parse_args()
    program = os.path.abspath(words.program)
    differ = 0
    for seed in range(words.seed, words.seed + words.count):
        with tempfile.TemporaryDirectory() as folder:
            what = judge(program, words.compiler, folder, seed)
            if what is not None:
                differ += 1
                print(f"{seed}: {what}", flush=True)
                if words.keep:
                    subprocess.run(["cp", "-r", folder, f"{words.keep}/{seed}"])
    print(f"against {words.compiler}: {words.count - differ} programs alike, {differ} not")
    return 0 if differ == 0 else 1


sys.exit(main())
