"""Makes large projects of the first form: two C files whose functions call one another. A module of bench/list-large.py and
.ci/both-paths.
"""
LIMIT = 1_048_576
PROJECT = """format = 1
entries = ["f0"]
[[component]]
name = "A"
files = ["a.c"]
[[component]]
name = "B"
files = ["b.c"]
"""


def chain(count):
    """Function k calls function k + 1, which stands in the other file."""
    files = ([], [])
    for k in range(count):
        here, there = files[k % 2], files[(k + 1) % 2]
        if k + 1 < count:
            here.append(f"void f{k + 1}(void);void f{k}(void){{f{k + 1}();}}\n")
        else:
            here.append(f"void f{k}(void){{}}\n")
    return files


def fans(count, width):
    """Function 0 calls functions that call `width` leaves each, in the other file."""
    a, b = [], []
    leaf = 1
    heads = []
    while leaf + width < count:
        head = f"h{len(heads)}"
        heads.append(head)
        names = [f"l{k}" for k in range(leaf, leaf + width)]
        leaf += width
        b.extend(f"void {name}(void){{}}\n" for name in names)
        a.append("".join(f"void {name}(void);" for name in names) + f"\nvoid {head}(void){{" + "".join(f"{name}();" for name in names) + "}\n")
    a.append("void f0(void){" + "".join(f"{head}();" for head in heads) + "}\n")
    return a, b


def knot(count):
    """Function 0 calls itself first, so that nothing behind that call is reached."""
    a, b = [], []
    for k in range(1, count):
        a.append(f"void g{k}(void);")
        b.append(f"void g{k}(void){{}}\n")
    a.append("\nvoid f0(void){f0();" + "".join(f"g{k}();" for k in range(1, count)) + "}\n")
    return a, b


def shapes():
    """Each shape just below the limit of control points (1, 4 for each function and 7 for each call), and just above it."""
    return [
        ("chain", chain(23_831)),
        ("chain over the limit", chain(23_832)),
        ("fans", fans(23_600, 100)),
        ("fans over the limit", fans(24_200, 100)),
        ("knot", knot(23_831)),
        ("knot over the limit", knot(23_832)),
    ]


def write(folder, files):
    """Writes the C files and the project file, and gives the sizes of the C files."""
    sizes = []
    for file, text in zip(("a.c", "b.c"), files):
        text = "".join(text).encode()
        assert len(text) <= LIMIT, (folder, file, len(text))
        sizes.append(len(text))
        with open(f"{folder}/{file}", "wb") as it:
            it.write(text)
    with open(f"{folder}/p.toml", "w") as it:
        it.write(PROJECT)
    return sizes
