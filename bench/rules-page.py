#!/usr/bin/env python3
"""Runs the lines of docs/rules.md on a built program: each line that breaks a rule must give what the page says, and
each line to write instead must be accepted.

usage: bench/rules-page.py [PROGRAM]        (PROGRAM: crates/coupling/out/coupling of this checkout)

A line of C is a file of the project that the page describes. A line of the project file takes the place that its words
say in the page's example, and what is to be written in its place is prose and isn't run.
"""
import os, re, subprocess, sys, tempfile

TOP = os.path.dirname(os.path.dirname(os.path.abspath(__file__)))
COMPONENTS = '[[component]]\nname = "A"\nfiles = ["a.c"]\n[[component]]\nname = "B"\nfiles = ["b.c"]\n'
OTHER = "void begin(void) { }\n"


def items(page):
    """The rule of each item of the page, whether it breaks the rule, and its text."""
    rule = None
    for part in re.split(r"\n(?=### |## |- )", page):
        head = re.match(r"### (\w+)\n", part)
        if head or part.startswith("## "):
            rule = head and head[1]
        elif rule and part.startswith(("- Breaks it:", "- Instead:")):
            yield rule, part.startswith("- Breaks"), part.split("\n\n")[0]


def of_c(text):
    """The files of an item that shows C."""
    files, keys, calls = {"b.c": OTHER}, {"entries": '["begin"]'}, ""
    block = re.search(r"```c\n(.*?)```", text, re.S)
    if block:
        files["a.c"] = re.sub(r"^  ", "", block[1], flags=re.M)
        text = text[block.end():]
    for name, code in re.findall(r"(?:([ab]\.c) )?`([^`]*)`", text):
        key = re.match(r"(entries|environment|calls) = (.*)", code)
        if key and key[1] == "calls":
            calls = f'[[test]]\nname = "T1"\nturns = 1000\n{code}\n'
        elif key:
            keys[key[1]] = key[2]
        else:
            files[name or "a.c"] = code + "\n" + (OTHER if name == "b.c" else "")
    files["p.toml"] = "format = 1\n" + "".join(f"{k} = {v}\n" for k, v in keys.items()) + COMPONENTS + calls
    return files


def of_project(text, example):
    """The files of an item that shows a line of the project file."""
    codes = re.findall(r"`([^`]*)`", text)
    line = codes[0]
    if "and no `[[component]]`" in text:
        example = re.sub(r"\[\[component\]\]\n.*\n.*\n", "", example)
        return {"p.toml": line + "\n" + example}
    if "in place of" in text:
        old, new = codes[1] + "\n", line + "\n"
    elif "behind" in text:
        old, new = codes[1] + "\n", codes[1] + "\n" + line + "\n"
    else:
        old = re.search(rf"^{line.split(' ')[0]} = .*\n", example, re.M)[0]
        new = line + "\n"
    assert old in example, text
    return {"p.toml": example.replace(old, new, 1)}


def answer(program, files):
    with tempfile.TemporaryDirectory() as folder:
        for name, text in files.items():
            with open(os.path.join(folder, name), "w") as file:
                file.write(text)
        ran = subprocess.run([program, "check", "p.toml"], cwd=folder, capture_output=True, timeout=60)
    return ran.returncode, (ran.stdout + ran.stderr).decode("utf-8", "replace")


def main():
    program = os.path.abspath(sys.argv[1]) if len(sys.argv) > 1 else f"{TOP}/crates/coupling/out/coupling"
    page = open(f"{TOP}/docs/rules.md").read()
    example = re.search(r"```toml\n(.*?)```", page, re.S)[1]
    passed = failed = 0
    for rule, breaks, text in items(page):
        if rule[0] == "J" and not breaks:
            continue
        said = ""
        if breaks:
            text, said = re.fullmatch(r"(.*) gives `([^`]*)`\s*", text, re.S).groups()
        status, line = answer(program, of_project(text, example) if rule[0] == "J" else of_c(text))
        if status == 3 and line == said + "\n" if breaks else status == 0:
            passed += 1
        else:
            failed += 1
            print(f"{rule}: status {status}, {line!r}, the page says {said or 'ok'!r}")
    print(f"lines of the page: {passed} as it says, {failed} not")
    sys.exit(failed != 0 or passed == 0)


main()
