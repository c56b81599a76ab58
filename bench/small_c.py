"""A small C of its own for bench/random-runs.py: trees, their text with the place of each node, and a plain interpreter.

Nothing here is shared with the program under test. The interpreter (`Machine`) walks the tree and keeps the list of all
events of a run; afterwards `Exercised` looks through that list, by the conditions on the events' places (docs/recorder.md).
"""

BITS = {"_Bool": 1, "char": 8, "unsigned char": 8, "short": 16, "int": 32, "unsigned": 32, "long": 64, "unsigned long": 64}
UNSIGNED = ("_Bool", "unsigned char", "unsigned", "unsigned long")
SIZES = {"_Bool": 1, "char": 1, "unsigned char": 1, "short": 2, "int": 4, "unsigned": 4, "long": 8, "unsigned long": 8}


def integer(kind):
    return ("integer", kind)


def pointer(target):
    return ("pointer", target)


def array(element, length):
    return ("array", element, length)


INT = integer("int")
VOID = ("void",)
CALLBACK = pointer(("function", INT, (INT,)))
PAIR = ("struct", "pair")
NODE = ("struct", "node")
STRUCTS = {
    "pair": [("lo", INT), ("hi", integer("unsigned")), ("row", array(INT, 4))],
    "node": [("at", integer("long")), ("in", PAIR), ("link", pointer(INT)), ("act", CALLBACK)],
}


def cells(type):
    if type[0] == "array":
        return type[2] * cells(type[1])
    if type[0] == "struct":
        return sum(cells(member) for _, member in STRUCTS[type[1]])
    return 1


def scalars(type):
    """The types of the cells of an object of this type, in order."""
    if type[0] == "array":
        return scalars(type[1]) * type[2]
    if type[0] == "struct":
        return [it for _, member in STRUCTS[type[1]] for it in scalars(member)]
    return [type]


def member_of(type, name):
    """How many cells stand before the member, and its type."""
    before = 0
    for other, member in STRUCTS[type[1]]:
        if other == name:
            return before, member
        before += cells(member)
    raise KeyError(name)


class Node:
    """A node of a tree. Its place is told when it is written."""

    def __init__(self, kind, type=None, **parts):
        self.kind, self.type, self.place, self.file = kind, type, None, None
        self.__dict__.update(parts)


class Variable:
    """An object's declarator. `life` is static, local or formal; of a `plain` one no address is taken.

    An `internal` one is declared with `static`; a `fixed` one is written by its loop alone.
    """

    def __init__(self, name, type, life, value=None, internal=False, plain=True):
        self.name, self.type, self.life, self.value = name, type, life, value
        self.internal, self.plain = internal, plain
        self.place, self.file, self.fixed = None, None, False


class Function:
    def __init__(self, name, result, formals, file):
        self.name, self.result, self.formals, self.file = name, result, formals, file
        self.body, self.place, self.internal = None, None, False
        self.type = ("function", result, tuple(it.type for it in formals))


# Writing.

def spelled(type):
    return f"struct {type[1]}" if type[0] == "struct" else type[-1]


def around(type):
    """What a declarator of this type has before and behind its name, its specifiers first."""
    before, behind = "", ""
    while True:
        if type[0] == "pointer":
            before = "*" + before
            if type[1][0] in ("array", "function"):
                before, behind = "(" + before, behind + ")"
        elif type[0] == "array":
            behind += f"[{type[2]}]"
        elif type[0] == "function":
            behind += f"({', '.join(typed(it, '') for it in type[2]) or 'void'})"
        else:
            return spelled(type) + " " + before, behind
        type = type[1]


def typed(type, name):
    before, behind = around(type)
    return (before + name).rstrip() + behind


def spelling(e):
    """The one token of a node without parts, or `sizeof` of a type."""
    if e.kind == "name":
        return e.variable.name
    if e.kind == "function":
        return e.function.name
    if e.kind == "string":
        return f'"{e.text}"'
    return e.text if e.kind == "constant" else f"sizeof({spelled(e.of)})"


class Writer:
    """Writes one file, and tells each node its place on the way."""

    def __init__(self, file):
        self.file, self.text, self.line, self.column, self.depth = file, [], 1, 1, 0

    def put(self, text):
        self.text.append(text)
        lines = text.split("\n")
        self.line += len(lines) - 1
        self.column = len(lines[-1]) + 1 if len(lines) > 1 else self.column + len(text)

    def mark(self, node):
        node.place, node.file = f"{self.file}:{self.line}:{self.column}", self.file

    def new_line(self):
        self.put("\n" + "  " * self.depth)

    def declarator(self, it):
        before, behind = around(it.type)
        self.put(before)
        self.mark(it)
        self.put(it.name + behind)

    def several(self, items, between=", "):
        for number, it in enumerate(items):
            if number:
                self.put(between)
            self.expression(it) if isinstance(it, Node) else self.declarator(it)

    def value(self, value):
        if isinstance(value, list):
            self.put("{ ")
            for number, it in enumerate(value):
                if number:
                    self.put(", ")
                self.value(it)
            self.put(" }")
        else:
            self.expression(value)

    def declaration(self, it):
        if it.internal:
            self.put("static ")
        self.declarator(it)
        if it.value is not None:
            self.put(" = ")
            self.value(it.value)
        self.put(";")

    def expression(self, e):
        if e.kind in ("name", "constant", "string", "function", "size"):
            self.mark(e)
            self.put(spelling(e))
        elif e.kind in ("unary", "deref", "address", "cast") or (e.kind == "step" and not e.after):
            self.mark(e)
            self.put({"deref": "*", "address": "&", "cast": f"({spelled(e.type)})"}.get(e.kind) or e.op)
            self.expression(e.part)
        elif e.kind in ("step", "member", "arrow"):
            self.expression(e.part)
            self.mark(e)
            self.put({"member": lambda: "." + e.name, "arrow": lambda: "->" + e.name, "step": lambda: e.op}[e.kind]())
        elif e.kind in ("binary", "assign", "comma"):
            self.expression(e.left)
            self.put("" if e.kind == "comma" else " ")
            self.mark(e)
            self.put(", " if e.kind == "comma" else e.op + " ")
            self.expression(e.right)
        else:
            getattr(self, "express_" + e.kind)(e)

    def express_paren(self, e):
        self.mark(e)
        self.put("(")
        self.expression(e.part)
        self.put(")")

    def express_choice(self, e):
        self.expression(e.test)
        self.put(" ")
        self.mark(e)
        self.put("? ")
        self.expression(e.left)
        self.put(" : ")
        self.expression(e.right)

    def express_index(self, e):
        self.expression(e.part)
        self.mark(e)
        self.put("[")
        self.expression(e.at)
        self.put("]")

    def express_call(self, e):
        self.mark(e)
        self.expression(e.designator)
        self.put("(")
        self.several(e.arguments)
        self.put(")")

    def statement(self, s):
        self.new_line()
        self.mark(s)
        getattr(self, "write_" + s.kind)(s)

    def write_block(self, s):
        self.put("{")
        self.depth += 1
        for it in s.items:
            if isinstance(it, Variable):
                self.new_line()
                self.declaration(it)
            else:
                self.statement(it)
        self.depth -= 1
        self.new_line()
        self.put("}")

    def write_plain(self, s):
        self.expression(s.part)
        self.put(";")

    def write_if(self, s):
        self.put("if (")
        self.expression(s.test)
        self.put(")")
        self.inner(s.then)
        if s.other:
            self.new_line()
            self.put("else")
            self.inner(s.other)

    def inner(self, s):
        self.depth += 1
        self.statement(s)
        self.depth -= 1

    def write_while(self, s):
        self.put("while (")
        self.expression(s.test)
        self.put(")")
        self.inner(s.body)

    def write_do(self, s):
        self.put("do")
        self.inner(s.body)
        self.new_line()
        self.put("while (")
        self.expression(s.test)
        self.put(");")

    def write_for(self, s):
        self.put("for (")
        if isinstance(s.first, Variable):
            self.declaration(s.first)
        else:
            if s.first:
                self.expression(s.first)
            self.put(";")
        for part, behind in ((s.test, ";"), (s.third, ")")):
            self.put(" ")
            if part:
                self.expression(part)
            self.put(behind)
        self.inner(s.body)

    def write_switch(self, s):
        self.put("switch (")
        self.expression(s.test)
        self.put(") {")
        for label, items in s.groups:
            self.new_line()
            self.put("default:" if label is None else f"case {label}:")
            for it in items:
                self.inner(it)
        self.new_line()
        self.put("}")

    def write_break(self, s):
        self.put("break;")

    def write_continue(self, s):
        self.put("continue;")

    def write_return(self, s):
        self.put("return")
        if s.part:
            self.put(" ")
            self.expression(s.part)
        self.put(";")

    def function(self, f):
        self.put("static " if f.internal else "")
        before, behind = around(f.result)
        self.put(before)
        self.mark(f)
        self.put(f.name + "(")
        self.several(f.formals)
        self.put(("" if f.formals else "void") + ")" + behind)
        self.statement(f.body)
        self.put("\n")


# Arithmetic.

def convert(kind, v):
    if kind == "_Bool":
        return int(v != 0)
    v &= (1 << BITS[kind]) - 1
    return v if kind in UNSIGNED or v < 1 << (BITS[kind] - 1) else v - (1 << BITS[kind])


def promoted(kind):
    return "int" if BITS[kind] < 32 else kind


def common(a, b):
    a, b = promoted(a), promoted(b)
    most = max(BITS[a], BITS[b])
    without_sign = any(BITS[it] == most and it in UNSIGNED for it in (a, b))
    return {(32, False): "int", (32, True): "unsigned", (64, False): "long", (64, True): "unsigned long"}[most, without_sign]


# Running.

class Stop(Exception):
    """The run ends here."""


class Jump(Exception):
    """A break, a continue, or a return with its value."""

    def __init__(self, kind, at=None, value=None):
        self.kind, self.at, self.value = kind, at, value


UNWRITTEN = ["unwritten"]
NULL = None


def inside(e):
    while e.kind == "paren":
        e = e.part
    return e


def is_lvalue(e):
    return inside(e).kind in ("name", "deref", "member", "arrow", "index", "string")


class Object:
    def __init__(self, declarator, values, constant):
        self.declarator, self.values, self.constant, self.alive = declarator, values, constant, True


class Machine:
    """One run. A pointer is (instance, first cell, length, index); a function is itself."""

    def __init__(self, project, turns, answers):
        self.project, self.turns, self.answers = project, turns, list(answers)
        self.events, self.objects, self.activations, self.activation = [], [], 0, 0
        self.static, self.names = {}, {}

    def stop(self, kind, at):
        raise Stop(f"undefined U{kind} {at.place}")

    def turn(self):
        if self.turns == 0:
            raise Stop("turns")
        self.turns -= 1

    # objects

    def make(self, declarator, values, constant=False):
        self.objects.append(Object(declarator, values, constant))
        return len(self.objects) - 1

    def end(self, instances):
        for it in reversed(instances):
            self.objects[it].alive = False
            self.events.append(("gone", it))

    def judge(self, place, at):
        if place is NULL:
            self.stop(6, at)
        if not self.objects[place[0]].alive:
            self.stop(7, at)
        if place[3] >= place[2]:
            self.stop(8, at)

    def enter(self, place, at):
        if place is NULL:
            self.stop(6, at)
        if place[3] >= place[2]:
            self.stop(8, at)

    def cell(self, place, type):
        return place[0], place[1] + place[3] * cells(type)

    def read(self, place, at):
        self.judge(place, at)
        return self.read_cell(self.cell(place, at.type), at)

    def read_cell(self, cell, at):
        value = self.objects[cell[0]].values[cell[1]]
        if value is UNWRITTEN:
            self.stop(5, at)
        self.events.append(("use", at, cell, self.activation))
        return value

    def check_write(self, place, at):
        self.judge(place, at)
        if self.objects[place[0]].constant:
            self.stop(11, at)

    def write(self, place, at, value):
        self.check_write(place, at)
        self.write_cell(self.cell(place, at.type), at, value)

    def write_cell(self, cell, at, value):
        self.objects[cell[0]].values[cell[1]] = value
        self.events.append(("def", at, cell, self.activation))

    # places

    def place(self, e):
        e = inside(e)
        if e.kind == "name":
            return self.instance_of(e.variable), 0, 1, 0
        if e.kind == "string":
            return self.static[e], 0, 1, 0
        if e.kind == "deref":
            return self.value(e.part)
        if e.kind == "member":
            place, at, owner = self.place(e.part), inside(e.part), inside(e.part).type
        elif e.kind == "arrow":
            place, at, owner = self.value(e.part), e, e.part.type[1]
        else:
            left = self.value(e.part)
            return self.moved(left, self.value(e.at), e)
        self.enter(place, at)
        return place[0], place[1] + place[3] * cells(owner) + member_of(owner, e.name)[0], 1, 0

    def instance_of(self, variable):
        return self.static[variable] if variable.life == "static" else self.names[variable]

    def moved(self, p, count, at):
        if p is NULL:
            return NULL if count == 0 else self.stop(14, at)
        if not self.objects[p[0]].alive:
            self.stop(7, at)
        if not 0 <= p[3] + count <= p[2]:
            self.stop(9, at)
        return p[0], p[1], p[2], p[3] + count

    # values

    def value(self, e):
        if e.kind == "paren":
            return self.value(e.part)
        if is_lvalue(e) and e.type[0] != "function":
            place = self.place(e)
            if e.type[0] != "array":
                return self.read(place, e)
            self.enter(place, e)
            return place[0], place[1] + place[3] * cells(e.type), e.type[2], 0
        return getattr(self, "value_" + e.kind)(e)

    def value_deref(self, e):
        return self.value(e.part)

    def value_function(self, e):
        return e.function

    def value_constant(self, e):
        return NULL if e.type[0] == "pointer" else e.value

    def value_size(self, e):
        return SIZES[e.of[1]]

    def value_address(self, e):
        return self.value(e.part) if e.part.type[0] == "function" else self.place(e.part)

    def value_cast(self, e):
        value = self.value(e.part)
        return value if e.type == VOID else convert(e.type[1], value)

    def value_unary(self, e):
        value = self.value(e.part)
        if e.op == "!":
            return int(value is NULL or value == 0)
        kind = e.type[1]
        value = convert(kind, value)
        return self.fitting(kind, {"+": value, "-": -value, "~": ~value}[e.op], e)

    def fitting(self, kind, value, at):
        if kind not in UNSIGNED and value != convert(kind, value):
            self.stop(1, at)
        return convert(kind, value)

    def is_true(self, e):
        value = self.value(e)
        return not (value is NULL or value == 0)

    def value_binary(self, e):
        if e.op == "&&":
            return int(self.is_true(e.left) and self.is_true(e.right))
        if e.op == "||":
            return int(self.is_true(e.left) or self.is_true(e.right))
        left, right = self.value(e.left), self.value(e.right)
        return self.operate(e.op, self.decayed(e.left), self.decayed(e.right), left, right, e)

    def decayed(self, e):
        return pointer(e.type[1]) if e.type[0] == "array" else e.type

    def operate(self, op, left_type, right_type, left, right, at):
        if left_type[0] == "pointer" or right_type[0] == "pointer":
            return self.operate_pointer(op, left_type, right_type, left, right, at)
        if op in ("<<", ">>"):
            kind = promoted(left_type[1])
            return self.shifted(op, kind, convert(kind, left), right, at)
        kind = common(left_type[1], right_type[1])
        a, b = convert(kind, left), convert(kind, right)
        if op in ("<", "<=", ">", ">=", "==", "!="):
            return int({"<": a < b, "<=": a <= b, ">": a > b, ">=": a >= b, "==": a == b, "!=": a != b}[op])
        if op in ("/", "%"):
            if b == 0:
                self.stop(2, at)
            quotient = abs(a) // abs(b) * (1 if (a < 0) == (b < 0) else -1)
            self.fitting(kind, quotient, at)
            return quotient if op == "/" else a - quotient * b
        return self.fitting(kind, {"+": a + b, "-": a - b, "*": a * b, "&": a & b, "|": a | b, "^": a ^ b}[op], at)

    def shifted(self, op, kind, a, count, at):
        if not 0 <= count < BITS[kind]:
            self.stop(3, at)
        if op == ">>":
            return a >> count
        if kind not in UNSIGNED and (a < 0 or a << count != convert(kind, a << count)):
            self.stop(4, at)
        return convert(kind, a << count)

    def operate_pointer(self, op, left_type, right_type, left, right, at):
        if op in ("==", "!="):
            return int(self.same(left, right) == (op == "=="))
        if right_type[0] == "integer":
            return self.moved(left, right if op == "+" else -right, at)
        return self.moved(right, left, at)

    def same(self, a, b):
        if a is NULL or b is NULL or isinstance(a, Function):
            return a is b
        return a[0] == b[0] and a[1] + a[3] == b[1] + b[3]

    def value_choice(self, e):
        part = e.left if self.is_true(e.test) else e.right
        return self.converted(e.type, self.value(part))

    def converted(self, type, value):
        return convert(type[1], value) if type[0] == "integer" else value

    def value_comma(self, e):
        self.value(e.left)
        return self.value(e.right)

    def value_assign(self, e):
        target, place = inside(e.left), self.place(e.left)
        if e.type[0] == "struct":
            return self.copy(target, place, e)
        if e.op == "=":
            value = self.value(e.right)
        else:
            old = self.read(place, target)
            right = self.value(e.right)
            value = self.operate(e.op[:-1], e.type, self.decayed(e.right), old, right, e)
        value = self.converted(e.type, value)
        self.write(place, target, value)
        return value

    def copy(self, target, place, e):
        source, origin = inside(e.right), self.place(e.right)
        self.judge(origin, source)
        instance, first = self.cell(origin, e.type)
        values = [self.read_cell((instance, first + k), source) for k in range(cells(e.type))]
        self.check_write(place, target)
        instance, first = self.cell(place, e.type)
        for k, value in enumerate(values):
            self.write_cell((instance, first + k), target, value)

    def value_step(self, e):
        target, place = inside(e.part), self.place(e.part)
        old = self.read(place, target)
        value = self.converted(e.type, self.operate(e.op[0], e.type, INT, old, 1, e))
        self.write(place, target, value)
        return old if e.after else value

    def value_call(self, e):
        function = self.value(e.designator)
        types = (e.designator.type if e.designator.type[0] == "function" else e.designator.type[1])[2]
        values = [self.converted(type, self.value(it)) for type, it in zip(types, e.arguments)]
        if function is NULL:
            self.stop(13, e)
        if function.file is None:
            return self.ask(function, e)
        value = self.call(function, values, e)
        if value is UNWRITTEN and function.result != VOID and e.used:
            self.stop(12, e)
        return value

    def ask(self, function, at):
        if function.result == VOID:
            return UNWRITTEN
        if not self.answers:
            raise Stop(f"env {at.place}")
        return convert(function.result[1], self.answers.pop(0))

    def call(self, function, values, site):
        self.turn()
        self.activations += 1
        kept = self.names, self.activation
        names = {it: self.make(it, [UNWRITTEN]) for it in function.formals}
        self.names, self.activation = names, self.activations
        self.events.append(("enter", site, function, self.activation))
        for k, (formal, value) in enumerate(zip(function.formals, values), 1):
            cell = (names[formal], 0)
            self.objects[cell[0]].values[0] = value
            self.events.append(("pass", site, k, cell, self.activation) if site else ("def", formal, cell, self.activation))
        ret, value = None, UNWRITTEN
        formals = list(names.values())
        try:
            self.statement(function.body)
        except Jump as jump:
            ret, value = jump.at, jump.value
        self.end(formals)
        self.events.append(("leave", ret, self.activation))
        self.names, self.activation = kept
        return self.converted(function.result, value) if value is not UNWRITTEN else value

    # statements

    def statement(self, s):
        getattr(self, "do_" + s.kind)(s)

    def do_block(self, s):
        made = []
        try:
            for it in s.items:
                self.declare(it, made) if isinstance(it, Variable) else self.statement(it)
        except Jump:
            self.end(made)
            raise
        self.end(made)

    def declare(self, it, made):
        if it.life == "static":
            return
        instance = self.make(it, [UNWRITTEN] * cells(it.type))
        self.names[it] = instance
        made.append(instance)
        if it.value is not None:
            self.fill(instance, it, self.first_values(it.type, it.value))

    def fill(self, instance, at, values):
        for k, value in enumerate(values):
            self.write_cell((instance, k), at, value)

    def first_values(self, type, value):
        """The values of the cells, from the left to the right."""
        if isinstance(value, list):
            parts = [type[1]] * type[2] if type[0] == "array" else [it for _, it in STRUCTS[type[1]]]
            given = [it for part, item in zip(parts, value) for it in self.first_values(part, item)]
            return given + [0 if it[0] == "integer" else NULL for it in scalars(type)[len(given):]]
        if type[0] == "array":
            given = [ord(it) for it in value.text]
            return (given + [0] * type[2])[:type[2]]
        return [self.converted(type, self.value(value))]

    def do_plain(self, s):
        self.value(s.part)

    def do_if(self, s):
        if self.is_true(s.test):
            self.statement(s.then)
        elif s.other:
            self.statement(s.other)

    def body(self, s):
        """Whether the loop goes on."""
        try:
            self.statement(s)
        except Jump as jump:
            if jump.kind == "return":
                raise
            return jump.kind == "continue"
        return True

    def test(self, test):
        self.turn()
        return test is None or self.is_true(test)

    def do_while(self, s):
        while self.test(s.test) and self.body(s.body):
            pass

    def do_do(self, s):
        while self.body(s.body) and self.test(s.test):
            pass

    def do_for(self, s):
        made = []
        try:
            if isinstance(s.first, Variable):
                self.declare(s.first, made)
            elif s.first:
                self.value(s.first)
            while self.test(s.test) and self.body(s.body):
                if s.third:
                    self.value(s.third)
        except Jump:
            self.end(made)
            raise
        self.end(made)

    def do_switch(self, s):
        kind = promoted(s.test.type[1])
        value = convert(kind, self.value(s.test))
        labels = [label for label, _ in s.groups]
        chosen = [convert(kind, it) if it is not None else None for it in labels]
        if value not in chosen and None not in chosen:
            return
        start = chosen.index(value) if value in chosen else chosen.index(None)
        try:
            for _, items in s.groups[start:]:
                for it in items:
                    self.statement(it)
        except Jump as jump:
            if jump.kind != "break":
                raise

    def do_break(self, s):
        raise Jump("break")

    def do_continue(self, s):
        raise Jump("continue")

    def do_return(self, s):
        value = self.value(s.part) if s.part else UNWRITTEN
        raise Jump("return", s, value)

    # the run

    def run(self, calls):
        try:
            for it in self.project.statics:
                self.static[it] = self.make(it, [UNWRITTEN] * cells(it.type), isinstance(it, Node))
            for it in self.project.statics:
                self.fill(self.static[it], it, self.static_values(it))
            for function, values in calls:
                values = [convert(it.type[1], v) for it, v in zip(function.formals, values)]
                self.call(function, values, None)
        except Stop as stop:
            return str(stop)
        return "done"

    def static_values(self, it):
        if isinstance(it, Node):
            return [ord(c) for c in it.text] + [0]
        if it.value is None:
            return [0 if type[0] == "integer" else NULL for type in scalars(it.type)]
        return self.first_values(it.type, it.value)


# What the list of events exercises.

def last(events, before, fits):
    """The place of the last event before this place that fits, or none."""
    for m in range(before - 1, -1, -1):
        if fits(events[m]):
            return m
    return None


def is_named(expression):
    name = inside(expression)
    return name.kind == "name" and name.type[0] in ("integer", "pointer")


def sort_of(expression):
    return "of a name" if is_named(expression) else "of another expression"


def writes(cell):
    return lambda e: (e[0] == "def" and e[2] == cell) or (e[0] == "pass" and e[3] == cell)


def touches(cell):
    return lambda e: (e[0] in ("def", "use") and e[2] == cell) or (e[0] == "pass" and e[3] == cell)


def enters(act):
    return lambda e: e[0] == "enter" and e[3] == act


class Exercised:
    """What a list of events exercises. An occurrence or function has its `component`, an object is `named`.

    `found` has the couplings as the program writes them, each with a word on the sort that it is of.
    """

    def __init__(self, events, component, named):
        self.events, self.component, self.named, self.found = events, component, named, {}
        for j, e in enumerate(events):
            if e[0] == "enter":
                self.call(e)
            elif e[0] == "use":
                self.shared(j, *e[1:3])
                self.parameter(j, *e[1:3])
            elif e[0] == "leave":
                self.returned(j, *e[1:3])

    def add(self, sort, kind, origin, target, *texts):
        """A coupling, if its two ends are in different components."""
        ends = self.component(origin), self.component(target)
        if ends[0] != ends[1]:
            self.found[(kind, *ends, *texts)] = sort

    def caller(self, h):
        """The activation that was entered last before this place and not left."""
        left = set()
        for m in range(h - 1, -1, -1):
            if self.events[m][0] == "leave":
                left.add(self.events[m][2])
            elif self.events[m][0] == "enter" and self.events[m][3] not in left:
                return self.events[m][3]
        return None

    def definition(self, expression, act, before):
        """What the name of an argument or of a returned value read last in the activation."""
        name = inside(expression)
        m = last(self.events, before, lambda e: e[0] == "use" and e[1] is name and e[3] == act)
        e = self.events[last(self.events, m, writes(self.events[m][2]))]
        return e[1] if e[0] == "def" else e[1].arguments[e[2] - 1]

    def call(self, e):
        _, site, function, _ = e
        if site:
            sort = "by name" if inside(site.designator).kind == "function" else "by a pointer"
            self.add(sort, "call", site, function, site.place, function.place, function.name)

    def shared(self, j, u, cell):
        home = self.component(u)
        i = last(self.events, j, lambda e: writes(cell)(e) or (e[0] == "use" and e[2] == cell and self.component(e[1]) == home))
        if i is not None and self.events[i][0] == "def":
            d = self.events[i][1]
            sort = "read by name" if u.kind in ("name", "member") else "read otherwise"
            self.add(sort, "shared", d, u, d.place, u.place, self.named(cell[0]))

    def parameter(self, j, u, cell):
        i = last(self.events, j, touches(cell))
        if i is None or self.events[i][0] != "pass":
            return
        _, site, k, _, act = self.events[i]
        h = last(self.events, i, enters(act))
        function, argument = self.events[h][2], site.arguments[k - 1]
        d = self.definition(argument, self.caller(h), h) if is_named(argument) else argument
        self.add(sort_of(argument), "parameter", site, function, d.place, u.place, f"{function.name}/{k}@{site.place}")

    def returned(self, j, ret, act):
        _, site, function, _ = self.events[last(self.events, j, enters(act))]
        if ret and ret.part and site and site.used:
            d = self.definition(ret.part, act, j) if is_named(ret.part) else ret
            self.add(sort_of(ret.part), "return", function, site, d.place, site.place, function.name)
