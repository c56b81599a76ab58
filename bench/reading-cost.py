#!/usr/bin/env python3
"""How long `lex` and `parse` take for texts of several kinds and sizes: bench/reading-cost.py [FOLDER]

No command goes through them yet. So this writes a small program over `cc_lex` and `cc_parse` into a copy of the
repository, in FOLDER or a new one, proves and builds it there with `rt run`, and runs it on texts that it makes. The
program reads a file, and five times cuts it into tokens and parses these. Each time it prints the number of tokens, what
was wrong and where, and the microseconds that either call took. A row shows the least of the five for each size.
"""
import pathlib
import shutil
import subprocess
import sys
import tempfile

PROGRAM = r"""//! Cuts a file into tokens and parses them five times, and prints the answers and the times.
#![tactic(auto)]

use cc_lex::{LexFault, TokenList, lex};
use cc_parse::{ParseFault, parse};
use std::time::Instant;
use std::{env, fs, io};

fn cut(rt: &impl AllocGlobal, bytes: &[u8]) -> Result<TokenList, LexFault> {
    if bytes.len() > 1048576 {
        return Err(LexFault::Memory);
    }
    lex(rt.alloc(), bytes)
}

fn answer(rt: &impl AllocGlobal, tokens: &TokenList) -> (u8, u64) {
    match parse(rt.alloc(), tokens) {
        Ok(_) => (0, 0),
        Err(ParseFault::Syntax { token }) => (1, token),
        Err(ParseFault::TooDeep { token }) => (2, token),
        Err(ParseFault::Memory) => (3, 0),
    }
}

fn main(rt: HostRuntime) -> io::Result<()> {
    let mut args = env::args(&rt)?;
    let _program = args.next();
    let Some(path) = args.next() else {
        return Ok(());
    };
    let bytes = fs::read(&rt, path.as_str())?;
    for _ in 0..5 {
        let start = Instant::now(&rt)?;
        let found = cut(&rt, &bytes);
        let cutting = start.elapsed(&rt)?.as_micros();
        match found {
            Ok(tokens) => {
                let start = Instant::now(&rt)?;
                let (what, token) = answer(&rt, &tokens);
                let parsing = start.elapsed(&rt)?.as_micros();
                println!(rt; "tokens {} {what} {token} {cutting} {parsing}", tokens.len())?;
            }
            Err(LexFault::At { offset, rule }) => println!(rt; "fault {offset} {rule} {cutting}")?,
            Err(LexFault::Memory) => println!(rt; "fault 0 0 {cutting}")?,
        }
    }
    Ok(())
}
"""

SIZES = [131072, 262144, 524288, 1048576]

C_TEXT = rb"""/* Sums the samples of a channel. */
static const unsigned int limits[4] = { 0x10u, 077, 'a', '\n' };

int sum_of(const struct sample *first, int count)
{
    int sum = 0; // of all so far
    for (int i = 0; i < count; ++i) {
        if (first[i].kind != KIND_NONE && first->value <= 1000L)
            sum += first[i].value << 2;
    }
    report("sum %d of \"%s\"\n", sum, first->name);
    return sum >= 0 ? sum : -sum;
}

"""


def filled(piece, size):
    return (piece * (size // len(piece) + 1))[:size]


def many(head, piece, tail, size):
    """The piece as often as the size allows, between head and tail."""
    return head + piece * ((size - len(head) - len(tail)) // len(piece)) + tail


# texts for `lex`
CUT = [
    ("ordinary C text", lambda n: C_TEXT * (n // len(C_TEXT))),
    ("slashes (one comment)", lambda n: b"/" * n),
    ("`/ ` (slashes as tokens)", lambda n: filled(b"/ ", n)),
    ("double quotes (empty strings)", lambda n: b'"' * n),
    ("single quotes", lambda n: b"'" * n),
    ("backslashes", lambda n: b"\\" * n),
    ("one string of backslashes", lambda n: b'"' + b"\\" * (n - 2) + b'"'),
    ("an open string of backslashes", lambda n: b'"' + b"\\" * (n - 1)),
    ("an open comment of stars", lambda n: b"/" + b"*" * (n - 1)),
    ("dots", lambda n: b"." * n),
    ("question marks", lambda n: b"?" * n),
    ("one name", lambda n: b"a" * n),
    ("one number", lambda n: b"1" * n),
    ("line feeds", lambda n: b"\n" * n),
]

BODY = b"void f(void) {"

# texts for `parse`
PARSED = [
    ("ordinary C text", lambda n: C_TEXT * (n // len(C_TEXT))),
    ("a body of assignments", lambda n: many(BODY, b"a=b;", b"}", n)),
    ("one call with many arguments", lambda n: many(BODY + b"f(a", b",a", b");}", n)),
    ("the same, 61 times a left operand", lambda n: many(BODY + b"f(a", b",a", b")" + b"+a" * 60 + b";}", n)),
    ("the same, in 60 parentheses with `+a` behind", lambda n: many(BODY + b"(" * 30 + b"f(a", b",a", b")" + b"+a)" * 30 + b";}", n)),
    ("blocks 63 deep, side by side", lambda n: many(BODY, b"{" * 63 + b"}" * 63, b"}", n)),
    ("expressions 61 deep", lambda n: many(BODY, b"(" * 61 + b"a" + b")" * 61 + b";", b"}", n)),
    ("sums of 62", lambda n: many(BODY, b"a" + b"+a" * 61 + b";", b"}", n)),
    ("one list of declarators", lambda n: many(b"int a", b",a", b";", n)),
    ("an initialiser list", lambda n: many(b"int a[]={1", b",1", b"};", n)),
    ("members of a struct", lambda n: many(b"struct s{", b"int a;", b"};", n)),
    ("constants of an enum", lambda n: many(b"enum e{A", b",A", b"};", n)),
    ("specifiers", lambda n: many(b"", b"int ", b";", n)),
    ("strings side by side", lambda n: many(b"char*s=", b'"a"', b";", n)),
    ("typedef names, each used at once", lambda n: b"".join(b"typedef int T%d;T%d a;" % (i, i) for i in range(n // 30))),
    ("a body that never ends", lambda n: many(BODY, b"a=b;", b"", n)),
    ("sums that are too deep at the end", lambda n: many(BODY, b"a" + b"+a" * 61 + b";", b"a" + b"+a" * 62, n)),
]


def built(folder):
    top = pathlib.Path(__file__).resolve().parent.parent
    copy = folder / "copy"
    if not copy.exists():
        subprocess.run(["git", "clone", "-q", str(top), str(copy)], check=True)
        crate = copy / "crates" / "reading_cost"
        (crate / "src").mkdir(parents=True)
        (crate / "src" / "main.rt").write_text(PROGRAM)
        (crate / "stdin").write_text("")
        (crate / "stdout").write_text("")
        with open(copy / "crates.txt", "a") as crates:
            crates.write("reading_cost: cc_lex cc_parse cc_tree cc_base\n")
    subprocess.run(["rt", "run"], cwd=copy / "crates" / "reading_cost", check=True, stdout=subprocess.DEVNULL)
    return copy / "crates" / "reading_cost" / "out" / "reading_cost"


def measured(program, text, folder, column):
    """The least microseconds in this column, and the answer."""
    path = folder / "text"
    path.write_bytes(text)
    out = subprocess.run([str(program), str(path)], check=True, capture_output=True, text=True).stdout
    rows = [line.split() for line in out.splitlines()]
    first = rows[0]
    if first[0] == "fault":
        return min(int(row[3]) for row in rows), f"L{first[2]} at {first[1]}"
    answer = f"{first[1]} tokens"
    if column == 5:
        answer += ["", f", syntax {first[3]}", f", too deep {first[3]}", ", no memory"][int(first[2])]
    return min(int(row[column]) for row in rows), answer


def table(program, folder, kinds, column):
    print("| text | " + " | ".join(f"{n // 1024} KiB" for n in SIZES) + " | answer at the last |")
    print("|---" * (len(SIZES) + 2) + "|")
    for name, make in kinds:
        times = []
        for n in SIZES:
            micros, answer = measured(program, make(n), folder, column)
            times.append(f"{micros / 1000:.1f}")
        print(f"| {name} | " + " | ".join(times) + f" | {answer} |", flush=True)


def main():
    folder = pathlib.Path(sys.argv[1]) if len(sys.argv) > 1 else pathlib.Path(tempfile.mkdtemp())
    folder.mkdir(parents=True, exist_ok=True)
    program = built(folder)
    print("`lex`, milliseconds:\n")
    table(program, folder, CUT, 4)
    print("\n`parse` of the tokens, milliseconds:\n")
    table(program, folder, PARSED, 5)
    if len(sys.argv) == 1:
        shutil.rmtree(folder)


main()
