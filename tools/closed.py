#!/usr/bin/env python3
"""Advancing a closed checking must be refused by the borrow checker, before any proof.

The lines below stand in no crate. They are tried as a program over a copy of the crates: with the
last of them the borrow checker must refuse it, at that line, and without it must accept it.
Exits 0 exactly if it does."""

import pathlib
import shutil
import subprocess
import sys
import tempfile

LINES = """\
use checking::checking::Checking;
use dossier::questions::Dossier;

fn main() {}

fn close_and_go_on<D: Dossier + Drop>(mut checking: Checking<D>) {
    let _ = checking.advance(1);
    checking.close().set_aside();
}
""".splitlines()
PLACE = LINES.index("    checking.close().set_aside();") + 1
OFFENDING = "    let _ = checking.advance(1);"
USED = ["checking", "dossier"]


def tried(root, lines):
    """The exit status of `rt try`, which compiles and runs but proves nothing, on these lines, and what it says."""
    crate = root / "crates" / "closed"
    (crate / "src").mkdir(parents=True, exist_ok=True)
    (crate / "src" / "main.rt").write_text("\n".join(lines) + "\n")
    run = subprocess.run(["rt", "try"], cwd=crate, capture_output=True, text=True)
    return run.returncode, run.stderr + run.stdout


def main():
    here = pathlib.Path(__file__).resolve().parent.parent
    with tempfile.TemporaryDirectory() as folder:
        root = pathlib.Path(folder)
        listed = (here / "crates.txt").read_text()
        (root / "crates.txt").write_text(f"{listed}\nclosed: {' '.join(USED)}\n")
        shutil.copytree(here / "crates", root / "crates", ignore=shutil.ignore_patterns("out"))
        status, said = tried(root, LINES)
        if status != 0:
            sys.exit("closed: the lines are refused before the checking is advanced:\n" + said[-500:])
        status, said = tried(root, LINES[:PLACE] + [OFFENDING] + LINES[PLACE:])
        if status == 0:
            sys.exit("closed: a closed checking was advanced")
        if f"main.rt:{PLACE + 1}:" not in said or "error[borrow-" not in said:
            sys.exit("closed: refused, but not by the borrow checker at that line:\n" + said[-500:])
    print("closed: advancing a closed checking is refused by the borrow checker")


main()
