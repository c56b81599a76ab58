#!/usr/bin/env python3
"""Cuts the C files of projects after every byte and changes one byte at a time, and runs `check` on what comes out.

usage: bench/cut-and-change.py [--seed S] [--runs N] [--jobs J] PROGRAM FOLDER..

A FOLDER is a project with its file p.toml; others are passed over, so examples/* may be given. Of the N runs (20,000)
those with a cut file come first: each C file up to each of its bytes, the whole file too. In the others one byte of one
file is another, half of the time one that C is written with. Which, is fixed by the seed S (1). J runs go on at a time (as
many as there are processors).

Every run must end within two seconds, with status 0 and one line on standard output or status 3 and one line on standard
error, and nothing on the other, and the line must not begin with `internal:`. Prints the figures and the first runs that
end otherwise, and ends with status 1 where there is one.
"""
import argparse, collections, multiprocessing, os, pathlib, random, shutil, subprocess, sys, tempfile, time

C_BYTES = b"abcfgintvoid_0123456789 \n\t(){}[];,.*&=+-/<>!?:|^~%#'\"\\"
KINDS = ("lexical", "syntax", "too deep", "offence", "link")
SHOWN = 10
SECONDS = 2


def projects(folders):
    """The folders with a p.toml, each with its C files and their bytes."""
    found = []
    for folder in map(pathlib.Path, folders):
        if (folder / "p.toml").is_file():
            found.append((folder, [(str(path.relative_to(folder)), path.read_bytes()) for path in sorted(folder.rglob("*.c"))]))
    return found


def plan(found, runs, seed):
    """What is run: the numbers of the project and of the file, a place, and the byte to stand there, None for a cut."""
    choose = random.Random(seed)
    places = [(p, f, at) for p, (_, files) in enumerate(found) for f, (_, text) in enumerate(files) for at in range(len(text))]
    ends = [(p, f, len(text)) for p, (_, files) in enumerate(found) for f, (_, text) in enumerate(files)]
    cuts = sorted(places + ends)
    if len(cuts) > runs:
        cuts = sorted(choose.sample(cuts, runs))
    planned = [cut + (None,) for cut in cuts]
    changes = set()
    while len(changes) < min(runs - len(planned), 200 * len(places)):
        p, f, at = choose.choice(places)
        byte = choose.choice(C_BYTES) if choose.random() < 0.5 else choose.randrange(256)
        if found[p][1][f][1][at] != byte:
            changes.add((p, f, at, byte))
    return planned + sorted(changes)


def begin(program, found, scratch):
    global PROGRAM, FOUND, COPIES
    PROGRAM, FOUND = program, found
    COPIES = pathlib.Path(tempfile.mkdtemp(dir=scratch))
    for p, (folder, _) in enumerate(found):
        shutil.copytree(folder, COPIES / str(p))


def wrong(status, out, err):
    """What is wrong with how a run ended, or nothing."""
    line, other = (out, err) if status == 0 else (err, out)
    if status not in (0, 3):
        return f"status {status}"
    if other or line.count(b"\n") != 1 or not line.endswith(b"\n"):
        return "not one line"
    return "internal" if line.startswith(b"internal:") else ""


def run(item):
    """The item, what is wrong with its run, the kind of its answer, and the seconds that it took."""
    p, f, at, byte = item
    name, text = FOUND[p][1][f]
    path = COPIES / str(p) / name
    path.write_bytes(text[:at] if byte is None else text[:at] + bytes([byte]) + text[at + 1:])
    start = time.perf_counter()
    try:
        ran = subprocess.run([PROGRAM, "check", "p.toml"], cwd=COPIES / str(p), capture_output=True, stdin=subprocess.DEVNULL, timeout=SECONDS)
        fault, said = wrong(ran.returncode, ran.stdout, ran.stderr), ran.stdout + ran.stderr
        kind = next((k for k in KINDS if f": {k}".encode() in said), "ok" if ran.returncode == 0 else "other")
    except subprocess.TimeoutExpired:
        fault, said, kind = f"no end in {SECONDS} s", b"", "other"
    took = time.perf_counter() - start
    path.write_bytes(text)
    return item, fault, said[:200], kind, took


def main():
    words = argparse.ArgumentParser(usage="bench/cut-and-change.py [--seed S] [--runs N] [--jobs J] PROGRAM FOLDER..")
    words.add_argument("--seed", type=int, default=1)
    words.add_argument("--runs", type=int, default=20_000)
    words.add_argument("--jobs", type=int, default=os.cpu_count())
    words.add_argument("program")
    words.add_argument("folders", nargs="+")
    words = words.parse_args()
    found = projects(words.folders)
    planned = plan(found, words.runs, words.seed)
    cuts = sum(byte is None for *_, byte in planned)
    kinds, bad, longest = collections.Counter(), 0, 0.0
    with tempfile.TemporaryDirectory() as scratch:
        with multiprocessing.Pool(words.jobs, begin, (os.path.abspath(words.program), found, scratch)) as pool:
            for (p, f, at, byte), fault, said, kind, took in pool.imap(run, planned, chunksize=32):
                kinds[kind] += 1
                longest = max(longest, took)
                if fault:
                    bad += 1
                    if bad <= SHOWN:
                        what = f"cut at {at}" if byte is None else f"byte {at} is {byte}"
                        print(f"{found[p][0]}/{found[p][1][f][0]}, {what}: {fault}: {said!r}", flush=True)
    print(f"projects {len(found)}, runs {len(planned)}: {cuts} cut, {len(planned) - cuts} changed; longest {longest:.2f} s")
    print("answers: " + ", ".join(f"{kind} {kinds[kind]}" for kind in ("ok",) + KINDS + ("other",)))
    print(f"ended otherwise than they must: {bad}")
    sys.exit(bad != 0 or not planned)


main()
