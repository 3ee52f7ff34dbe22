#!/usr/bin/env python3
"""Lists where the time of a crate's check went, by the modules that the checker wrote.

usage: check_times.py CRATE [ROWS]

`rt check` writes a file for each module that it has checked, as it ends with it. The time between two files is that of
the later one. So run one check from nothing, on one processor, with nothing beside it:

    cd crates/CRATE && rm -rf out/incremental && rt check --jobs 1    (or rt check --test --jobs 1)

First come the seconds of each kind of module, the largest first, then the ROWS modules that took most (20 if not
given). Lts and Tie are what the checker makes of a body's loans and drops, Goals and Proof of what has to be proved,
Answers are the proofs of the repository.
"""
import pathlib
import sys
from collections import Counter

TOP = pathlib.Path(__file__).resolve().parents[1]

# There was a longer pause between two checks.
PAUSE = 600


def seconds(folder):
    """The seconds of each module: from the file before its own to its own."""
    written = sorted((file.stat().st_mtime, file.name) for file in folder.rglob("*.oantt"))
    took = Counter()
    for (before, _), (at, name) in zip(written, written[1:]):
        if at - before < PAUSE:
            took[name.removesuffix(".oantt").removesuffix(".decls")] += at - before
    return took


def main():
    if len(sys.argv) not in (2, 3):
        sys.exit(__doc__.split("\n\n")[1])
    folder = TOP / "crates" / sys.argv[1] / "out" / "incremental"
    took = seconds(folder)
    if not took:
        sys.exit(f"check_times: no check is kept in {folder.relative_to(TOP)}")
    kinds = Counter()
    for name, time in took.items():
        kinds[name.rpartition(".")[2]] += time
    print(f"{sum(took.values()):.0f} s in all: " + ", ".join(f"{it} {s:.0f}" for it, s in kinds.most_common(8)))
    for name, time in took.most_common(int(sys.argv[2]) if len(sys.argv) == 3 else 20):
        print(f"{time:7.1f} {name}")


if __name__ == "__main__":
    main()
