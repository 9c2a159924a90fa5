"""Lines of code, definitions and proofs, and must-fail edits, for each crate, as a table for docs/PROOFS.md."""
import glob
import os

TOP = os.path.join(os.path.dirname(__file__), "..", "crates")


def lines(pattern):
    return sum(sum(1 for _ in open(f)) for f in glob.glob(pattern, recursive=True))


def main():
    total = [0, 0, 0, 0]
    print("| crate | code | definitions | proofs | edits |\n|---|---|---|---|---|")
    for crate in sorted(os.listdir(TOP)):
        at = os.path.join(TOP, crate)
        row = [
            lines(at + "/src/**/*.rt"), lines(at + "/specs/**/*.antt"), lines(at + "/proofs/**/*.antt"),
            len(glob.glob(at + "/must-fail/*.edit")),
        ]
        total = [a + b for a, b in zip(total, row)]
        print("| `%s` | %d | %d | %d | %d |" % (crate, *row))
    print("| all | %d | %d | %d | %d |" % tuple(total))


main()
