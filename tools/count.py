#!/usr/bin/env python3
"""Prints the table of crates of docs/MEASUREMENTS.md, as markdown.

    tools/count.py [GATE_LOG]

A line for each crate of crates.txt, in its order: lines of code (src/*.rt), of specs, of shared proofs (proofs/*.antt) and of function
proofs (deeper in proofs/), proof lines for each code line, proof lines of more than 200 characters, must-fail edits, and the largest
source file; then a line for all of them. With a gate log, which is the output of `rt ci`, also the seconds that each crate took to
prove. Their sum is more than the time that passed, since two or more crates are proved at a time.
"""
import re
import sys
from pathlib import Path

ROOT = Path(__file__).resolve().parent.parent
LONG_LINE = 200
LEAST_CODE = 10  # a crate with less code, as one of definitions only, has no ratio worth a figure


def lines_of(files):
    return [line for f in files for line in f.read_text(encoding="utf-8").splitlines()]


def crate_names():
    listed = (ROOT / "crates.txt").read_text(encoding="utf-8").splitlines()
    return [line.split(":")[0].strip() for line in listed if ":" in line and not line.lstrip().startswith("#")]


def seconds_in(log):
    """The seconds of each crate that the gate proved. A crate that is named twice counts by its last line."""
    proved = re.compile(r"^rt: (\w+) proved \((\d+) s\)")
    found = (proved.match(line) for line in Path(log).read_text(encoding="utf-8", errors="replace").splitlines())
    return {m.group(1): int(m.group(2)) for m in found if m}


class Count:
    """The figures of one crate, or of several added up."""

    def __init__(self, code=0, specs=0, shared=0, functions=0, long=0, edits=0, largest=("", 0)):
        self.code, self.specs, self.shared, self.functions = code, specs, shared, functions
        self.long, self.edits, self.largest = long, edits, largest

    @staticmethod
    def of_crate(name):
        crate = ROOT / "crates" / name
        if not crate.is_dir():
            sys.exit(f"tools/count.py: crates.txt lists {name}, and there is no crates/{name}")
        sources = sorted(crate.glob("src/**/*.rt"))
        shared = lines_of(sorted(crate.glob("proofs/*.antt")))
        functions = lines_of(sorted(crate.glob("proofs/*/**/*.antt")))
        sizes = [(f"{name}/{f.name}", len(lines_of([f]))) for f in sources]
        return Count(
            code=len(lines_of(sources)),
            specs=len(lines_of(sorted(crate.glob("specs/**/*.antt")))),
            shared=len(shared),
            functions=len(functions),
            long=sum(len(line) > LONG_LINE for line in shared + functions),
            edits=len(list(crate.glob("must-fail/*.edit"))),
            largest=max(sizes, key=lambda s: s[1], default=("", 0)),
        )

    def plus(self, other):
        return Count(
            self.code + other.code,
            self.specs + other.specs,
            self.shared + other.shared,
            self.functions + other.functions,
            self.long + other.long,
            self.edits + other.edits,
            max(self.largest, other.largest, key=lambda s: s[1]),
        )

    def ratio(self):
        return f"{(self.shared + self.functions) / self.code:.1f}" if self.code >= LEAST_CODE else ""

    def cells(self, whole_name):
        name, size = self.largest
        file = name if whole_name else name.split("/")[-1]
        return [self.code, self.specs, self.shared, self.functions, self.ratio(), self.long, self.edits, f"{file} {size}"]


def print_row(cells):
    print("| " + " | ".join(str(c) for c in cells) + " |")


def main(arguments):
    if len(arguments) > 1:
        sys.exit(__doc__)
    seconds = seconds_in(arguments[0]) if arguments else None
    if seconds == {}:
        sys.exit(f"tools/count.py: {arguments[0]} has no line such as 'rt: NAME proved (7 s)'")

    def timed(time, cells):
        return cells if seconds is None else [time] + cells

    heads = ["Code", "Specs", "Shared proofs", "Function proofs", "Proof lines a code line", f"Proof lines over {LONG_LINE} characters", "Must-fail edits", "Largest source file"]
    print_row(["Crate"] + timed("Check, s", heads))
    print("|---" * (1 + len(timed("", heads))) + "|")
    total = Count()
    for name in crate_names():
        count = Count.of_crate(name)
        total = total.plus(count)
        print_row([name] + timed((seconds or {}).get(name, ""), count.cells(whole_name=False)))
    print_row(["all"] + timed(sum((seconds or {}).values()), total.cells(whole_name=True)))


main(sys.argv[1:])
