#!/usr/bin/env python3
"""Brings the names of specs/ and proofs/ to snake case, and those of facts and types to upper camel case.

usage: python3 tools/respell.py        at the top of the repository, once, after /opt/rattle/port/port.py

tools/respelled.tsv has a row for each name: old, a tab, new. The toolchain's script for names does the turning: in proof files
and in clauses, ghost blocks and `ghost use` items of the sources; code, strings and comments outside code spans stay.
Pages under docs/ and the README are turned in their code spans.
"""
import glob
import os
import subprocess
import sys

HERE = os.path.dirname(os.path.realpath(__file__))
SNAKE = "/opt/rattle/port/notes/2026-11-18-names-are-in-snake-case/snake.py"


def main():
    top = os.path.dirname(HERE)
    table = os.path.join(HERE, "respelled.tsv")
    folders = [it for part in ("src", "specs", "proofs") for it in sorted(glob.glob(f"crates/*/{part}", root_dir=top))]
    pages = ["README.md", *sorted(glob.glob("docs/*.md", root_dir=top))]
    done = subprocess.run([sys.executable, SNAKE, "--table", table, "--only", "antt,rt,md", "--prose", "none", *folders, *pages], cwd=top)
    crates = sorted(glob.glob(os.path.join(top, "crates", "*", "")))
    for crate in crates:
        subprocess.run(["rt", "fmt"], cwd=crate, stdout=subprocess.DEVNULL)
    return done.returncode


if __name__ == "__main__":
    raise SystemExit(main())
