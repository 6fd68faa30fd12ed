#!/usr/bin/env python3
"""Runs what README.md shows, from its own text, at the top of the repository.

A block of C or Rust is a whole program: it is compiled, and must print the block of `text` behind it. C goes by way of the
sanitizers, and what may be used before it is set is an error. Rust is a package that has a copy of examples/rust beside it.
Of a block of `sh` each line is run. bash examples/build.sh comes first."""
import os
import pathlib
import re
import shutil
import subprocess
import sys

TOP = pathlib.Path(__file__).resolve().parent.parent
ROOM = TOP / "target" / "readme"
LIBRARY = TOP / "target" / "hall"
# The gate runs these itself.
OF_THE_GATE = ("bash .ci/run", "bash examples/")
STRICT = ["-std=c99", "-O2", "-Wall", "-Wextra", "-Werror", "-pedantic", "-Wconversion", "-fsanitize=address,undefined", "-fno-sanitize-recover=all"]
PACKAGE = '[package]\nname = "snippet"\nedition = "2024"\n\n[dependencies]\nhall = { path = "../hall" }\n\n[workspace]\n'


def blocks(text):
    """Language and text of each fenced block."""
    return re.findall(r"^```(\w*)\n(.*?)^```$", text, re.M | re.S)


def run(command, what, **more):
    done = subprocess.run(command, cwd=TOP, text=True, stdout=subprocess.PIPE, **more)
    if done.returncode:
        sys.exit(f"README.md, {what}: status {done.returncode}")
    return done.stdout


def printed_by_c(source):
    program = ROOM / "snippet"
    program.with_suffix(".c").write_text(source, encoding="utf-8")
    places = ["-I", LIBRARY / "include", program.with_suffix(".c"), "-L", LIBRARY / "lib", "-lhall", "-o", program]
    run(["cc", *STRICT, *places], "the program in C does not compile")
    return run([program], "the program in C")


def printed_by_rust(source):
    shutil.copytree(TOP / "examples" / "rust", ROOM / "hall", ignore=shutil.ignore_patterns("target"))
    (ROOM / "rust" / "src").mkdir(parents=True)
    (ROOM / "rust" / "Cargo.toml").write_text(PACKAGE, encoding="utf-8")
    (ROOM / "rust" / "src" / "main.rs").write_text(source, encoding="utf-8")
    place = ["--manifest-path", ROOM / "rust" / "Cargo.toml", "--target-dir", TOP / "target" / "examples" / "rust"]
    return run(["cargo", "run", "--offline", "--quiet", *place], "the program in Rust", env={**os.environ, "HALL_LIB": str(LIBRARY / "lib")})


def main():
    shutil.rmtree(ROOM, ignore_errors=True)
    ROOM.mkdir(parents=True)
    count = 0
    found = blocks((TOP / "README.md").read_text(encoding="utf-8"))
    for (language, text), (next_language, owed) in zip(found, [*found[1:], ("", "")]):
        if language in ("c", "rust"):
            printed = (printed_by_c if language == "c" else printed_by_rust)(text)
            if (next_language, owed) != ("text", printed):
                sys.exit(f"README.md: the program in {language} prints\n{printed}and the block behind it, {next_language}, has\n{owed}")
            count += 1
        for line in text.splitlines() if language == "sh" else []:
            if not line.startswith(OF_THE_GATE):
                run(["bash", "-euo", "pipefail", "-c", line], line)
                count += 1
    if {language for language, _ in found} != {"", "c", "rust", "sh", "text"}:
        sys.exit("README.md has a block in a language that this script does not know, or has lost one")
    print(f"README.md: {count} programs and commands, as shown")


main()
