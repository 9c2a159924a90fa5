"""Gives the crate `log` the name `run_log`, since the library has a crate of that name: paths, imports and crates.txt.

usage: run_log.py          (once, at the top of the repository, after names.py)
"""
import glob
import os
import re

if os.path.isdir("crates/log"):
    os.rename("crates/log", "crates/run_log")
for kind in ("specs/**/*.antt", "proofs/**/*.antt", "src/**/*.rt", "must-fail/*.edit"):
    for file in glob.glob("crates/*/" + kind, recursive=True):
        if "/out/" in file:
            continue
        text = open(file).read()
        new = re.sub(r"\bRattle\.log\b", "Rattle.run_log", text)
        new = re.sub(r"(?<![\w.:])log::", "run_log::", new)
        if new != text:
            open(file, "w").write(new)
text = open("crates.txt").read()
lines = [
    line if line.startswith("#") else re.sub(r"\blog\b", "run_log", line) for line in text.split("\n")
]
open("crates.txt", "w").write("\n".join(lines))
