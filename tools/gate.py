#!/usr/bin/env python3
"""Runs `rt ci` at the top of the repository, and fails where it fails, or where it calls a must-fail edit bad.

`rt ci` passes all the same if an edit cannot be applied or read, since such an edit shows nothing. Its line `rt: ok`
then tells how many are bad."""

import pathlib
import re
import subprocess
import sys

BAD = re.compile(r"^rt: ok\b.*, [1-9][0-9]* bad\b")


def main():
    top = pathlib.Path(__file__).resolve().parent.parent
    run = subprocess.Popen(["rt", "ci"], cwd=top, stdout=subprocess.PIPE, stderr=subprocess.STDOUT, text=True)
    bad = []
    for line in run.stdout:
        print(line, end="", flush=True)
        if BAD.match(line):
            bad.append(line.strip())
    status = run.wait()
    if status == 0 and bad:
        sys.exit("gate: must-fail edits that show nothing: " + "; ".join(bad))
    sys.exit(status)


main()
