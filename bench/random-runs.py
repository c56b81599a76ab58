#!/usr/bin/env python3
"""Runs random small projects of two or three components, and compares what the program says with a plain slow computation.

For each project this script walks the trees itself (bench/small_c.py), keeps the list of all events of each test's run, and
looks through that list for the couplings that it exercises. `tests` has to name exactly their rows, and the end of each run;
`score` has to name for each row the first of these tests; and each of these couplings has to be a row.

usage: random-runs.py PROGRAM [--count N] [--seed N] [--keep FOLDER]

A project is made from its seed alone. One that differs is copied to FOLDER/SEED.
"""
import argparse, collections, os, pathlib, random, shutil, subprocess, sys, tempfile

sys.path.insert(0, str(pathlib.Path(__file__).resolve().parent))
import small_c
from small_c import (CALLBACK, INT, NODE, PAIR, VOID, Function, Machine, Node, Variable, Writer, array, common, integer,
                     pointer, promoted)

KINDS = ["int", "int", "int", "int", "unsigned", "long", "char", "unsigned char", "short", "_Bool", "unsigned long"]
TEXT = pointer(integer("char"))
PRIMARY = ("name", "constant", "string", "function", "size", "paren", "index", "member", "arrow", "call")


def wrapped(e):
    return e if e.kind in PRIMARY else Node("paren", e.type, part=e)


def constant(value, kind="int"):
    return Node("constant", integer(kind), value=value, text=f"{value}{ {'int': '', 'unsigned': 'u', 'long': 'L'}[kind]}")


def null():
    return Node("constant", pointer(INT), value=None, text="0")


def named(function):
    return Node("function", function.type, function=function)


def is_null(e):
    return e.kind == "constant" and e.type[0] == "pointer"


def name_of(variable):
    return Node("name", variable.type, variable=variable)


def plain(e):
    """An expression statement. The value of a call that is all of it isn't used."""
    unused(e)
    return Node("plain", part=e)


def unused(e):
    while e.kind == "paren":
        e = e.part
    if e.kind == "call":
        e.used = False
    if e.kind == "comma":
        unused(e.left)
        unused(e.right)


class Maker:
    """Makes one project from a seed."""

    def __init__(self, seed):
        self.r = random.Random(seed)
        self.number = 0
        self.strings, self.statics = [], []
        self.inside = None

    def name(self, stem):
        self.number += 1
        return f"{stem}{self.number}"

    def chance(self, part):
        return self.r.random() < part

    # the outline

    def project(self):
        r = self.r
        self.components = {f"C{k}": [f"c{k}.c"] + [f"c{k}_2.c"] * self.chance(0.2) for k in range(1, r.choice([3, 3, 4]))}
        self.files = [it for files in self.components.values() for it in files]
        self.owner = {file: name for name, files in self.components.items() for file in files}
        self.globals = {file: [self.object(type) for type in self.types()] for file in self.files}
        self.functions = {file: self.outlines(file) for file in self.files}
        self.environment = []
        if self.chance(0.5):
            self.environment = [Function("ask", INT, [self.formal(INT)], None), Function("tell", VOID, [self.formal(INT)], None)]
        for it in self.environment:
            it.rank = 2
        for file in self.files:
            self.file = file
            for it in self.globals[file]:
                it.value = self.static_value(it.type)
            for it in self.functions[file]:
                self.body(it)
        self.texts = {file: self.written(file) for file in self.files}
        self.statics += [it for file in self.files for it in self.globals[file]] + self.strings
        self.tests = [self.test(k) for k in range(1, r.randint(2, 4))]
        return self

    def types(self):
        """The types of a file's objects. The first of them are there for pointers."""
        r = self.r
        others = [self.kind(), self.kind(), self.kind(), array(INT, 4), array(INT, 4), PAIR, NODE, pointer(INT), pointer(INT),
                  CALLBACK, array(CALLBACK, 2), pointer(PAIR), TEXT, array(integer("char"), 4)]
        return [INT, PAIR][:r.randint(1, 2)] + [r.choice(others) for _ in range(r.randint(1, 3))]

    def object(self, type):
        return Variable(self.name("g"), type, "static", internal=type != INT and self.chance(0.2), plain=False)

    def kind(self):
        return integer(self.r.choice(KINDS))

    def formal(self, type):
        return Variable(self.name("a"), type, "formal", plain=self.chance(0.7))

    def outlines(self, file):
        r = self.r
        made = [Function(self.name("f"), INT, [self.formal(INT)], file)]
        for _ in range(r.randint(1, 3)):
            formals = [self.formal(r.choice([self.kind(), INT, INT, pointer(INT), pointer(INT), pointer(PAIR), CALLBACK, TEXT]))
                       for _ in range(r.randint(0, 3))]
            made.append(Function(self.name("f"), r.choice([VOID, VOID, INT, self.kind(), pointer(INT)]), formals, file))
        made.append(Function(self.name("e"), r.choice([VOID, INT]), [self.formal(self.kind()) for _ in range(r.randint(0, 2))], file))
        for it in made:
            it.internal = it.name[0] == "f" and self.chance(0.1)
            it.rank = -1 if it.name[0] == "e" else r.random()
        return made

    def static_value(self, type):
        if type[0] == "array" and type[1] == integer("char"):
            return self.string("ab", "xyz", "", "c") if self.chance(0.6) else None
        if self.chance(0.3) and (type[0] == "integer" or type == PAIR or type == array(INT, 4)):
            return None
        if type[0] == "array":
            return [self.static_scalar(type[1]) for _ in range(self.r.randint(1, 4) if type[1] == INT else type[2])]
        if type == PAIR:
            return [constant(self.r.randint(0, 9)), constant(self.r.randint(0, 9)), [constant(1), constant(2)]][:self.r.randint(1, 3)]
        if type == NODE:
            return [constant(3), [constant(4), constant(5)], self.static_scalar(pointer(INT)), self.static_scalar(CALLBACK)]
        return self.static_scalar(type)

    def static_scalar(self, type):
        if type[0] == "integer":
            return constant(self.r.randint(0, 20))
        if type == TEXT:
            return self.literal()
        if type == CALLBACK:
            return named(self.r.choice(self.callbacks()))
        target = [it for it in self.seen() if it.type == type[1]]
        if target:
            return Node("address", type, part=name_of(self.r.choice(target)))
        target = [it for it in self.seen() if it.type[0] == "array" and it.type[1] == type[1]]
        return name_of(self.r.choice(target)) if target else null()

    def string(self, *texts):
        text = self.r.choice(texts)
        return Node("string", array(integer("char"), len(text) + 1), text=text)

    def literal(self):
        it = self.string("on", "off", "idle", "x")
        self.strings.append(it)
        return it

    def seen(self):
        """The objects of file scope that this file may name."""
        return [it for file in self.files for it in self.globals[file] if file == self.file or not it.internal]

    def callable(self):
        return [it for file in self.files for it in self.functions[file] if file == self.file or not it.internal]

    def callbacks(self):
        return [it for it in self.callable() if it.type == ("function", INT, (INT,))]

    # places

    def place(self, wanted, writing=False, address=False):
        """An lvalue of a wanted type, or none where none is found by chance."""
        for _ in range(12):
            variable = self.r.choice(self.scope if self.scope and self.chance(0.4) else self.seen())
            direct, e = True, name_of(variable)
            for _ in range(4):
                if wanted(e.type):
                    break
                e, direct = self.deeper(e, direct)
                if e is None:
                    break
            if e is None or not wanted(e.type) or variable is self.inside:
                continue
            if direct and (variable.fixed and (writing or address) or variable.plain and address):
                continue
            # Rows of two string literals that one place writes have one text, so none is written.
            if writing and not direct and e.type == integer("char"):
                continue
            return e
        return None

    def deeper(self, e, direct):
        r = self.r
        if e.type[0] == "array":
            return Node("index", e.type[1], part=e, at=self.index(e.type[2])), direct
        if e.type[0] == "struct":
            name, type = r.choice(small_c.STRUCTS[e.type[1]])
            return Node("member", type, part=wrapped(e), name=name), direct
        if e.type[0] != "pointer" or e.type[1][0] == "function":
            return None, direct
        if e.type[1][0] == "struct" and self.chance(0.7):
            name, type = r.choice(small_c.STRUCTS[e.type[1][1]])
            return Node("arrow", type, part=e, name=name), False
        if self.chance(0.75):
            return Node("deref", e.type[1], part=e), False
        return Node("index", e.type[1], part=e, at=constant(0 if self.chance(0.9) else 1)), False

    def index(self, length):
        if self.depth <= 0 or self.chance(0.5):
            return constant(self.r.randint(0, length - 1))
        if self.chance(0.03):
            return self.integer(1)
        mask = 1 if length < 4 else 3
        return Node("binary", INT, op="&", left=wrapped(self.converted(self.integer(1))), right=constant(mask))

    def converted(self, e):
        return e if e.type == INT else Node("cast", INT, part=wrapped(e))

    # expressions

    def full(self, make, *words):
        """A full expression: a local without address may be assigned once inside it."""
        self.calls = 2
        locals = [it for it in self.scope if it.life != "static" and it.plain and not it.fixed and it.type[0] == "integer"]
        self.inside = self.r.choice(locals) if locals and self.chance(0.2) else None
        self.may_assign = True
        made = make(*words)
        self.inside = None
        return made

    def assigned_inside(self):
        self.may_assign = False
        target = name_of(self.inside)
        if self.chance(0.4):
            return Node("step", target.type, op=self.r.choice(["++", "--"]), after=self.chance(0.5), part=target)
        return Node("assign", target.type, op=self.r.choice(["=", "=", "^="]), left=target, right=self.integer(1))

    def integer(self, depth):
        self.depth = depth
        r, pick = self.r, self.r.random()
        if self.inside and self.may_assign and self.chance(0.4):
            return self.assigned_inside()
        if depth <= 0 or pick < 0.45:
            e = self.place(lambda type: type[0] == "integer") if self.chance(0.75) else None
            if e and self.chance(0.1):
                e = Node("paren", e.type, part=e)
            return e or r.choice([constant(r.randint(0, 9)), constant(r.randint(0, 300)), constant(r.randint(0, 9), "unsigned"),
                                  constant(r.randint(0, 9), "long")])
        if pick < 0.62:
            return self.arithmetic(depth)
        if pick < 0.70:
            op = r.choice(["<", "<=", ">", ">=", "==", "!="])
            return Node("binary", INT, op=op, left=wrapped(self.integer(depth - 1)), right=wrapped(self.integer(depth - 1)))
        if pick < 0.75:
            return Node("binary", INT, op=r.choice(["&&", "||"]), left=wrapped(self.condition(depth - 1)), right=wrapped(self.condition(depth - 1)))
        if pick < 0.80:
            return self.choice(self.condition(depth - 1), self.integer(depth - 1), self.integer(depth - 1))
        if pick < 0.92 and self.calls > 0:
            e = self.call(lambda type: type[0] == "integer", depth)
            if e:
                return e
        part = self.integer(depth - 1)
        if pick < 0.96:
            op = r.choice(["+", "~", "!", "-"])
            return Node("unary", INT if op == "!" else integer(promoted(part.type[1])), op=op, part=wrapped(part))
        if pick < 0.98:
            return Node("cast", self.kind(), part=wrapped(part))
        return Node("size", integer("unsigned long"), of=self.kind())

    def choice(self, test, left, right):
        type = integer(common(left.type[1], right.type[1]))
        return Node("choice", type, test=wrapped(test), left=wrapped(left), right=wrapped(right))

    def arithmetic(self, depth):
        r = self.r
        left, right = wrapped(self.integer(depth - 1)), wrapped(self.integer(depth - 1))
        op = r.choice(["&", "|", "^", "+", "-", "+", "*", "/", "%", "<<", ">>"])
        if op in ("+", "-", "*") and not self.chance(0.1):
            left = wrapped(Node("binary", integer(common(left.type[1], "int")), op="&", left=left, right=constant(63)))
            right = wrapped(Node("binary", integer(common(right.type[1], "int")), op="&", left=right, right=constant(31)))
        if op in ("/", "%") and not self.chance(0.1):
            right = constant(r.randint(1, 9))
        if op in ("<<", ">>") and not self.chance(0.1):
            left = wrapped(Node("binary", integer(common(left.type[1], "int")), op="&", left=left, right=constant(63)))
            right = constant(r.randint(0, 7))
        kind = promoted(left.type[1]) if op in ("<<", ">>") else common(left.type[1], right.type[1])
        return Node("binary", integer(kind), op=op, left=left, right=right)

    def condition(self, depth):
        pick = self.r.random()
        if pick < 0.8:
            return self.integer(depth)
        e = self.place(lambda type: type[0] == "pointer")
        if e is None:
            return self.integer(depth)
        if pick < 0.9:
            return e
        return Node("binary", INT, op=self.r.choice(["==", "!="]), left=wrapped(e), right=null())

    def pointing(self, type, depth):
        """An expression of a pointer type."""
        r, pick = self.r, self.r.random()
        if pick < 0.35:
            e = self.place(lambda it: it == type)
            if e:
                return e
        if pick < 0.42 and depth > 0:
            left, right = self.pointing(type, 0), self.pointing(type, 0)
            if not is_null(left) or not is_null(right):
                return Node("choice", type, test=wrapped(self.condition(0)), left=wrapped(left), right=wrapped(right))
        if pick < 0.50 and depth > 0 and self.calls > 0:
            e = self.call(lambda it: it == type, depth)
            if e:
                return e
        if self.chance(0.01):
            return null()
        if type == CALLBACK:
            e = named(r.choice(self.callbacks()))
            return Node("address", CALLBACK, part=e) if self.chance(0.2) else e
        if type == TEXT and self.chance(0.6):
            return self.literal()
        if self.chance(0.3):
            e = self.place(lambda it: it[0] == "array" and it[1] == type[1], address=True)
            if e:
                return e if self.chance(0.7) else Node("binary", type, op="+", left=wrapped(e), right=constant(r.randint(0, 2)))
        e = self.place(lambda it: it == type[1], address=True)
        return Node("address", type, part=wrapped(e) if e.kind == "paren" else e) if e else null()

    def expression(self, type, depth):
        if type[0] == "pointer":
            return self.pointing(type, depth)
        if self.chance(0.5):
            names = [it for it in self.seen() + self.scope * 2 if it.type[0] == "integer" and it is not self.inside]
            if names:
                e = name_of(self.r.choice(names))
                return Node("paren", e.type, part=e) if self.chance(0.1) else e
        return self.integer(depth)

    def call(self, wanted, depth):
        r = self.r
        self.calls -= 1
        if wanted(INT) and self.chance(0.15):
            e = self.place(lambda type: type == CALLBACK)
            if e:
                designator = wrapped(Node("deref", CALLBACK[1], part=e)) if self.chance(0.3) else e
                return Node("call", INT, designator=wrapped(designator), arguments=[self.expression(INT, depth - 1)], used=True)
        # Most calls go one way, so that runs come back from them: recursion ends with the turns.
        least = self.function.rank if self.chance(0.95) else -1
        others = [it for it in self.callable() + self.environment if wanted(it.result) and it.rank > least]
        apart = [it for it in others if it.file is None or self.owner[it.file] != self.owner[self.file]]
        if not others:
            return None
        f = r.choice(apart if apart and self.chance(0.75) else others)
        arguments = [self.expression(it.type, depth - 1) for it in f.formals]
        return Node("call", f.result, designator=named(f), arguments=arguments, used=True)

    # statements

    def assignment(self):
        r, pick = self.r, self.r.random()
        if pick < 0.42:
            target = self.place(lambda type: type[0] == "integer", writing=True)
            if target:
                value = self.call(lambda type: type[0] == "integer", 2) if self.chance(0.3) else None
                return plain(Node("assign", target.type, op="=", left=target, right=value or self.integer(2)))
        if pick < 0.52:
            target = self.place(lambda type: type[0] == "integer", writing=True)
            if target:
                op = r.choice(["&=", "|=", "^=", "+=", "-="])
                return plain(Node("assign", target.type, op=op, left=target, right=self.integer(1)))
        if pick < 0.60:
            target = self.place(lambda type: type[0] == "integer" and type[1] != "_Bool", writing=True)
            if target:
                after = self.chance(0.6)
                return plain(Node("step", target.type, op=r.choice(["++", "--"]), after=after, part=wrapped(target) if after else target))
        if pick < 0.72:
            target = self.place(lambda type: type[0] == "pointer", writing=True)
            if target:
                return plain(Node("assign", target.type, op="=", left=target, right=self.pointing(target.type, 1)))
        if pick < 0.78:
            target = self.place(lambda type: type[0] == "struct", writing=True)
            source = target and self.place(lambda type: type == target.type)
            if source:
                source = Node("paren", source.type, part=source) if self.chance(0.1) else source
                return plain(Node("assign", target.type, op="=", left=target, right=source))
        e = self.call(lambda type: True, 2)
        if e is None:
            return plain(self.integer(2))
        if e.type != VOID and self.chance(0.1):
            unused(e)
            return plain(Node("cast", VOID, part=e))
        return plain(wrapped(e) if self.chance(0.9) else Node("paren", e.type, part=e))

    def block(self, count, depth):
        kept, items = list(self.scope), []
        for _ in range(self.r.choice([0, 0, 1, 1, 2])):
            items.append(self.local())
        for _ in range(count):
            items.append(self.statement(depth - 1))
            if self.chance(0.1):
                items.append(self.local())
        self.scope = kept
        return Node("block", items=items)

    def local(self):
        r = self.r
        type = r.choice([self.kind(), self.kind(), INT, INT, array(INT, 4), PAIR, pointer(INT), CALLBACK, pointer(PAIR)])
        if self.chance(0.1):
            it = Variable(self.name("s"), type, "static", internal=True, plain=False)
            it.value = self.static_value(type)
            self.statics.append(it)
        else:
            it = Variable(self.name("l"), type, "local", plain=self.chance(0.6))
            it.value = self.local_value(type)
        self.scope.append(it)
        return it

    def local_value(self, type):
        if self.chance(0.03):
            return None
        if type[0] == "array":
            return [self.full(self.expression, INT, 1) for _ in range(self.r.randint(1, type[2]))]
        return [self.full(self.expression, INT, 1)] if type[0] == "struct" else self.full(self.expression, type, 2)

    def recursion(self):
        """A call of another component's function, an argument of which calls this function again, behind a name."""
        counter = [it for it in self.function.formals if it.type == INT]
        others = [it for it in self.callable() if self.owner[it.file] != self.owner[self.file] and it.rank > self.function.rank
                  and len(it.formals) > 1 and it.formals[1].type[0] == "integer"]
        if not counter or not others or self.function.result[0] != "integer":
            return None
        self.inside, self.calls = None, 0
        callee, counter = self.r.choice(others), self.r.choice(counter)
        few = Node("binary", INT, op="&", left=name_of(counter), right=constant(3))
        less = Node("binary", INT, op="-", left=wrapped(few), right=constant(1))
        own = [less if it is counter else self.expression(it.type, 0) for it in self.function.formals]
        own = Node("call", self.function.result, designator=named(self.function), arguments=own, used=True)
        # Of its own formal a function that is called again has another definition.
        first = name_of(counter) if callee.formals[0].type[0] == "integer" else self.expression(callee.formals[0].type, 0)
        arguments = [first, own] + [self.expression(it.type, 0) for it in callee.formals[2:]]
        call = Node("call", callee.result, designator=named(callee), arguments=arguments, used=True)
        few = Node("binary", INT, op="&", left=name_of(counter), right=constant(3))
        test = Node("binary", INT, op=">", left=wrapped(few), right=constant(0))
        return Node("if", test=test, then=plain(call), other=None)

    def statement(self, depth):
        again = self.recursion() if self.chance(0.1) else None
        if again:
            return again
        pick = self.r.random()
        if depth <= 0 or pick < 0.62:
            return self.full(self.assignment)
        if pick < 0.76:
            other = self.block(self.r.randint(1, 2), depth) if self.chance(0.4) else None
            return Node("if", test=self.full(self.condition, 2), then=self.block(self.r.randint(1, 2), depth), other=other)
        if pick < 0.88:
            return self.loop(depth)
        if pick < 0.93:
            return self.switch(depth)
        if pick < 0.95 and self.loops:
            return Node("if", test=self.full(self.condition, 1), then=Node(self.r.choice(["break", "continue"])), other=None)
        if pick < 0.97:
            return Node("if", test=self.full(self.condition, 1), then=self.leaving(), other=None)
        return self.block(self.r.randint(1, 2), depth)

    def leaving(self):
        type = self.function.result
        return Node("return", part=None if type == VOID else self.full(self.expression, type, 2))

    def loop(self, depth):
        r, pick = self.r, self.r.random()
        self.loops += 1
        kept = list(self.scope)
        if pick < 0.8:
            counter = Variable(self.name("i"), INT, "local", value=constant(0))
            counter.fixed = True
            self.scope.append(counter)
            test = Node("binary", INT, op="<", left=name_of(counter), right=constant(r.randint(1, 4)))
            third = Node("step", INT, op="++", after=True, part=name_of(counter))
            if self.chance(0.2):
                third = Node("comma", INT, left=self.full(self.assignment).part, right=third)
                unused(third)
            made = Node("for", first=counter, test=test, third=third, body=self.block(r.randint(1, 2), depth))
        elif pick < 0.83:
            first = self.full(self.assignment).part if self.chance(0.5) else None
            made = Node("for", first=first, test=None, third=None, body=self.block(r.randint(1, 2), depth))
            made.body.items.append(Node("if", test=self.full(self.condition, 1), then=Node("break"), other=None))
        else:
            made = Node("while" if pick < 0.93 else "do", test=self.full(self.condition, 2), body=self.block(r.randint(1, 2), depth))
        self.scope = kept
        self.loops -= 1
        return made

    def switch(self, depth):
        r = self.r
        test = self.full(self.integer, 2)
        test = Node("binary", integer(common(test.type[1], "int")), op="&", left=wrapped(test), right=constant(3))
        labels = r.sample(range(4), r.randint(1, 3)) + [None] * self.chance(0.5)
        r.shuffle(labels)
        loops, self.loops = self.loops, 0
        groups = []
        for label in labels:
            items = [self.statement(min(depth - 1, 1)) for _ in range(r.randint(0, 2))]
            groups.append((label, items + [Node("break")] * self.chance(0.6)))
        self.loops = loops
        return Node("switch", test=test, groups=groups)

    def body(self, function):
        self.function, self.loops, self.depth = function, 0, 0
        self.scope = list(function.formals)
        block = self.block(self.r.randint(2, 5), 3)
        if function.result != VOID and not self.chance(0.03):
            block.items.append(self.leaving())
        function.body = block

    # texts

    def written(self, file):
        self.file = file
        w = Writer(file)
        for name, members in small_c.STRUCTS.items():
            w.put(f"struct {name} {{ {' '.join(small_c.typed(type, it) + ';' for it, type in members)} }};\n")
        for it in self.environment:
            w.put(f"{small_c.typed(it.result, it.name)}({small_c.typed(INT, '')});\n")
        for it in self.callable():
            w.put(("static " if it.internal else "") + small_c.typed(it.type, it.name) + ";\n")
        for it in self.seen():
            if it not in self.globals[file]:
                w.put(f"extern {small_c.typed(it.type, it.name)};\n")
        known = set()
        for it in self.globals[file]:
            for other in self.named_in(it.value):
                if other in self.globals[file] and other not in known:
                    self.declare_before(w, other, known)
            if it not in known:
                w.declaration(it)
                w.put("\n")
            known.add(it)
        for it in self.functions[file]:
            w.function(it)
        return "".join(w.text)

    def declare_before(self, w, it, known):
        """A declaration that isn't the defining one; a static one without a value would be it, so there the object stands."""
        if it.internal and it.value is None:
            w.declaration(it)
            w.put("\n")
            known.add(it)
        else:
            w.put(("static " if it.internal else "extern ") + small_c.typed(it.type, it.name) + ";\n")

    def named_in(self, value):
        if isinstance(value, list):
            return [it for part in value for it in self.named_in(part)]
        if value is None or value.kind not in ("name", "address"):
            return []
        return [value.variable] if value.kind == "name" else self.named_in(value.part)

    def test(self, number):
        r = self.r
        entries = [it for file in self.files for it in self.functions[file] if it.name[0] == "e"]
        calls = []
        for _ in range(r.randint(1, 4)):
            f = r.choice(entries)
            calls.append((f, [r.choice([0, 1, r.randint(0, 127)]) if it.type[1] != "_Bool" else r.randint(0, 1) for it in f.formals]))
        answers = [r.randint(-5, 300) for _ in range(r.randint(0, 30))] if self.environment else []
        wants = [f"R{number}.{k}" for k in range(r.choice([0, 1, 1, 2]))]
        return f"T{number}", calls, answers, r.choice([3, 10, 30, 100, 200, 400]), wants

    def project_file(self):
        lines = ["format = 1"]
        entries = [it.name for file in self.files for it in self.functions[file] if it.name[0] == "e"]
        lines.append(f"entries = {listed(entries)}")
        if self.environment:
            lines.append(f"environment = {listed([it.name for it in self.environment])}")
        for name, files in self.components.items():
            lines += ["", "[[component]]", f'name = "{name}"', f"files = {listed(files)}"]
        for name, calls, answers, turns, wants in self.tests:
            calls = ", ".join("[" + ", ".join([f'"{f.name}"', *map(str, values)]) + "]" for f, values in calls)
            lines += ["", "[[test]]", f'name = "{name}"', f"turns = {turns}", f"calls = [{calls}]"]
            lines += [f"answers = {answers}", f"requirements = {listed(wants)}"]
        return "\n".join(lines) + "\n"


def listed(words):
    return "[" + ", ".join(f'"{it}"' for it in words) + "]"


# Comparing.

class Differs(Exception):
    pass


def said(program, command, folder):
    ran = subprocess.run([program, command, "p.toml"], cwd=folder, capture_output=True, text=True, timeout=600)
    if ran.returncode not in (0, 1) or ran.stderr:
        raise Differs(f"{command}: status {ran.returncode}, {ran.stderr.strip()[:200]}")
    return ran.stdout.splitlines(), ran.returncode


def runs_of(project):
    """For each test the couplings that its run exercises, the end, and the list of events."""
    for _, calls, answers, turns, _ in project.tests:
        machine = Machine(project, turns, answers)
        end = machine.run(calls)
        component = lambda it: project.owner[it.file]
        name_of_object = lambda it: shown(machine.objects[it].declarator)
        yield small_c.Exercised(machine.events, component, name_of_object).found, end, machine.events


def shown(declarator):
    return "<string>" if isinstance(declarator, Node) else declarator.name


def verdicts(rows, marks):
    """The three lines of `score`, of the rows' keys and of which of them have a mark."""
    calls = [it for it in rows if it[0] == "call"]
    others = [it for it in rows if it[0] != "call"]
    groups = {it[3] for it in others}
    numbers = [(len([it for it in calls if it in marks]), len(calls)), (len({it[3] for it in others if it in marks}), len(groups)),
               (len([it for it in others if it in marks]), len(others))]
    words = ["call-coupling", "all-coupling-defs", "all-coupling-uses"]
    return [f"{word} {'met' if some == all else 'not met'} {some}/{all}" for word, (some, all) in zip(words, numbers)]


def judge(program, folder, project, counts):
    found = list(runs_of(project))
    lines, status = said(program, "score", folder)
    rows, marks = [], {}
    for line in lines[1:-3]:
        _, *key, mark = line.split(",")
        rows.append(tuple(key))
        marks[tuple(key)] = mark
    if len(set(rows)) != len(rows):
        raise Differs("two rows with one text")
    wanted = {}
    for (couplings, _, _), (name, *_) in zip(found, project.tests):
        for it in couplings:
            if it not in marks:
                raise Differs(f"exercised by {name} and no row: {it}")
            wanted.setdefault(it, name)
    for it in rows:
        if marks[it] != wanted.get(it, "-"):
            raise Differs(f"the mark is {marks[it]} in place of {wanted.get(it, '-')}: {it}")
    if lines[-3:] != verdicts(rows, wanted) or status != int(any("not met" in it for it in lines[-3:])):
        raise Differs(f"verdicts {lines[-3:]} in place of {verdicts(rows, wanted)}, status {status}")
    compare_tests(said(program, "tests", folder)[0][1:], found, project, rows)
    tell(counts, rows, found)


def compare_tests(lines, found, project, rows):
    number = {it: k for k, it in enumerate(rows, 1)}
    wanted = []
    for (couplings, end, _), (name, _, _, _, wants) in zip(found, project.tests):
        for want in wants or ["-"]:
            wanted += [f"{name},{want},{k},{end}" for k in sorted(number[it] for it in couplings) or ["-"]]
    if lines != wanted:
        other = next((pair for pair in zip(lines + ["(nothing)"], wanted + ["(nothing)"]) if pair[0] != pair[1]), None)
        raise Differs(f"tests: {other[0]} in place of {other[1]}")


def tell(counts, rows, found):
    for it in rows:
        counts["listed", it[0]] += 1
    for it in set().union(*(couplings.keys() for couplings, _, _ in found)):
        counts["rows exercised", it[0]] += 1
    for couplings, end, events in found:
        counts["runs", end.split(" ")[0] if end[0] != "u" else " ".join(end.split(" ")[:2])] += 1
        counts["events", "all"] += len(events)
        for it, how in couplings.items():
            counts["exercised", f"{it[0]}, {how}"] += 1


def main():
    words = argparse.ArgumentParser()
    words.add_argument("program")
    words.add_argument("--count", type=int, default=2000)
    words.add_argument("--seed", type=int, default=1)
    words.add_argument("--keep", default="")
    words = words.parse_args()
    program, differ, counts = os.path.abspath(words.program), 0, collections.Counter()
    sys.setrecursionlimit(100000)
    for seed in range(words.seed, words.seed + words.count):
        with tempfile.TemporaryDirectory() as folder:
            project = Maker(seed).project()
            for name, text in {**project.texts, "p.toml": project.project_file()}.items():
                pathlib.Path(folder, name).write_text(text)
            try:
                judge(program, folder, project, counts)
            except Differs as what:
                differ += 1
                print(f"{seed}: {what}", flush=True)
                if words.keep:
                    shutil.copytree(folder, f"{words.keep}/{seed}", dirs_exist_ok=True)
    for (what, kind), count in sorted(counts.items()):
        print(f"{what} {kind}: {count}")
    print(f"random runs: {words.count - differ} projects alike, {differ} not (seeds {words.seed} to {words.seed + words.count - 1})")
    return 0 if differ == 0 else 1


sys.exit(main())
