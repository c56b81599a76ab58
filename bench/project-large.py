#!/usr/bin/env python3
"""Makes project files of half and of the whole size limit, reads them with `cc_project::read_project`, and prints the
figures.

usage: bench/project-large.py [COPY]

No program of this repository reads project files by `read_project` yet. So this makes a copy of the crates in the folder
COPY (a temporary one where none is given) with one program more, which reads its first argument and calls `read_project`
once, and has `rt run` prove and build it there. A COPY that is built is used again.
"""
import os, resource, shutil, subprocess, sys, tempfile, time

TOP = os.path.dirname(os.path.dirname(os.path.abspath(__file__)))
LIMIT = 1_048_576
MAIN = """//! Reads a project file once.
#![tactic(auto)]

use cc_project::ProjectFault;
use std::process::ExitCode;
use std::rt::Env;
use std::{env, fs, io};

fn name(rt: &(impl Env + AllocGlobal)) -> io::Result<Option<String>> {
    let mut args = env::args(rt)?;
    let _program = args.next();
    Ok(args.next())
}

fn main(rt: HostRuntime) -> ExitCode {
    let Ok(Some(name)) = name(&rt) else {
        return ExitCode::from(10);
    };
    let Ok(text) = fs::read_to_string(&rt, name.as_str()) else {
        return ExitCode::from(11);
    };
    match cc_project::read_project(rt.alloc(), text.as_str().as_bytes()) {
        Ok(_) => ExitCode::from(0),
        Err(ProjectFault::NotToml) => ExitCode::from(12),
        Err(ProjectFault::Shape { rule, .. }) => ExitCode::from(100u8.saturating_add(rule)),
        Err(ProjectFault::Memory) => ExitCode::from(13),
    }
}
"""
ENDS = {0: "read", 12: "not TOML", 13: "no memory"}


def base(names="", tests=""):
    """A project file with these keys at the top and these tests."""
    return (f'format = 1\nentries = ["f"]\n{names}[[component]]\nname = "A"\nfiles = ["a.c"]\n'
            f'[[component]]\nname = "B"\nfiles = ["b.c"]\n{tests}')


def filled(size, item, before="", after=""):
    """The items 0, 1, .. between the two texts, as many as `size` bytes have room for."""
    items, room, k = [], size - len(before) - len(after), 0
    while room >= len(item(k)):
        items.append(item(k))
        room -= len(item(k))
        k += 1
    return before + "".join(items) + after


def tests(size):
    """At most 1,000 tests, which fill the file with calls of two arguments and answers."""
    share = (size - len(base())) // 1000
    def one(k):
        head = f'[[test]]\nname = "T{k}"\nturns = 10000000\n'
        calls = filled(share // 2, lambda c: f'["f{c}",{c},-{c}],', "calls = [", "]\n")
        return head + calls + filled(share - len(head) - len(calls), lambda a: f"{a},", "answers = [", "]\n")
    return base(tests="".join(one(k) for k in range(1000)))


def answers(size):
    """A test of 10,000 calls and 100,000 answers, or of half as many."""
    n = 10_000 * size // LIMIT
    calls = "".join(f'["f{c}",{c},{c},{c}],' for c in range(n))
    return base(tests=f'[[test]]\nname = "T"\nturns = 1\ncalls = [{calls}]\nanswers = [{",".join(str(100_000 + a) for a in range(10 * n))}]\n')


def names(size):
    """1,000 tests with as many requirements as fit, at most 100 each."""
    share = (size - len(base())) // 1000
    def one(k):
        head = f'[[test]]\nname = "T{k}"\nturns = 1\ncalls = []\n'
        return head + filled(share - len(head), lambda r: f'"R{k}-{r}",' if r < 100 else " " * share, "requirements = [", "]\n")
    return base(tests="".join(one(k) for k in range(1000)))


def long_names(size):
    """255 entries and 256 functions of the environment, with long names that differ at their ends."""
    width = (size - len(base()) - 40) // 511 - 3
    def name(k):
        return f'"{"x" * (width - 4)}{k:04}"'
    text = base(names="environment = [" + ",".join(name(k) for k in range(255, 511)) + "]\n")
    return text.replace('["f"]', "[" + ",".join(name(k) for k in range(255)) + "]", 1)


def keys(size):
    """As many other keys as fit: J14 refuses them."""
    return filled(size, lambda k: f"k{k}=1\n", "", base())


def headers(size):
    """As many tests as fit, which are more than 1,000: J10 refuses them."""
    return filled(size, lambda k: "[[test]]\n", base())


def built(copy):
    program = f"{copy}/crates/reads_project/out/reads_project"
    if not os.path.exists(program):
        shutil.copytree(f"{TOP}/crates", f"{copy}/crates", ignore=shutil.ignore_patterns("out"), dirs_exist_ok=True)
        shutil.copy(f"{TOP}/HANDLES", copy)
        with open(f"{TOP}/crates.txt") as old, open(f"{copy}/crates.txt", "w") as new:
            new.write(old.read() + "reads_project: cc_project\n")
        os.makedirs(f"{copy}/crates/reads_project/src", exist_ok=True)
        with open(f"{copy}/crates/reads_project/src/main.rt", "w") as main:
            main.write(MAIN)
        log = f"{copy}/build.log"
        print(f"building the program in {copy}; the log is {log}", file=sys.stderr)
        subprocess.run(["rt", "run"], cwd=f"{copy}/crates/reads_project", stdout=open(log, "w"), stderr=subprocess.STDOUT, stdin=subprocess.DEVNULL)
    if not os.path.exists(program):
        sys.exit("the program was not built")
    return program


def made(path, shape, size):
    """Writes the file in a process of its own, so that its memory isn't counted below."""
    if os.fork() == 0:
        with open(path, "w") as file:
            file.write(shape(size))
        os._exit(0)
    os.wait()
    return os.path.getsize(path)


def measure(program, folder, shape, size):
    length = made(f"{folder}/p.toml", shape, size)
    assert 0 < length <= LIMIT, (shape.__name__, length)
    best, usage, status = None, None, None
    for _ in range(20):
        start = time.perf_counter()
        ran = subprocess.Popen([program, "p.toml"], cwd=folder)
        _, wait, used = os.wait4(ran.pid, 0)
        took = time.perf_counter() - start
        status = os.waitstatus_to_exitcode(wait)
        if best is None or took < best:
            best, usage = took, used
    end = ENDS.get(status, f"J{status - 100}" if status > 100 else f"status {status}")
    print(f"{shape.__name__:10} {length:9} bytes  {end:8} {best * 1000:6.1f} ms  {usage.ru_maxrss / 1024:5.1f} MB", flush=True)


def main():
    copy = os.path.abspath(sys.argv[1]) if len(sys.argv) > 1 else tempfile.mkdtemp()
    os.makedirs(copy, exist_ok=True)
    program = built(copy)
    print(f"this script has {resource.getrusage(resource.RUSAGE_SELF).ru_maxrss / 1024:.1f} MB, and no smaller figure is told")
    with tempfile.TemporaryDirectory() as folder:
        for shape in (tests, answers, names, long_names, keys, headers):
            for size in (LIMIT // 2, LIMIT):
                measure(program, folder, shape, size)


main()
