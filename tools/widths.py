#!/usr/bin/env python3
"""Writes the maps of keys of 128 bytes in crates/rart_c from those of 32, and the tables of IPv6 networks from those of
IPv4: Rattle has no macro that writes items.

usage: widths.py [--check]

Each file and folder of `src`, `specs` and `proofs` whose name has the number 32 is written again with 128 in its name
and its text, and each whose name has net4, in any case, with net6. With --check it writes nothing, and fails if a file
is not what it would write; the layout isn't compared.
"""
import pathlib
import re
import sys

sys.dont_write_bytecode = True

CRATE = pathlib.Path(__file__).resolve().parents[1] / "crates" / "rart_c"

# The width in a name or as a number of its own, not in `u32` or `w32`.
WIDTH = re.compile(r"(?<![uw\d])32(?!\d)")

# What a table of IPv4 networks has in a name or in a text, and what that of IPv6 has.
NETWORKS = [
    (re.compile(r"(net|cidr|cidrtable|ip ?v|handles|owned)4", re.I), r"\g<1>6"),
    (re.compile(r"\[u8; 4\]"), "[u8; 16]"),
]


def widened(text):
    return WIDTH.sub("128", text)


def for_six(text):
    for old, new in NETWORKS:
        text = old.sub(new, text)
    return text


def files():
    """Yields each file that is written again, the path of the other, and what its text becomes."""
    for top in ("src", "specs", "proofs"):
        for path in sorted((CRATE / top).rglob("*")):
            inside = str(path.relative_to(CRATE))
            for pattern, change in ((WIDTH, widened), (re.compile("net4", re.I), for_six)):
                if path.is_file() and pattern.search(inside):
                    yield path, CRATE / change(inside), change


def without_layout(text):
    """Returns a text without what a formatter may change."""
    return re.sub(r",([)}\]])", r"\1", "".join(text.split()))


def main(words):
    if words not in ([], ["--check"]):
        sys.exit("usage: widths.py [--check]")
    stale, wanted = [], set()
    for path, wide, change in list(files()):
        text = change(path.read_text(encoding="utf-8"))
        wanted.add(wide)
        if not words:
            wide.parent.mkdir(parents=True, exist_ok=True)
            wide.write_text(text, encoding="utf-8")
        elif not wide.is_file() or without_layout(wide.read_text(encoding="utf-8")) != without_layout(text):
            stale.append(wide)
    stale += [path for top in ("src", "specs", "proofs") for path in (CRATE / top).rglob("*")
              if path.is_file() and re.search("128|net6", str(path.relative_to(CRATE)), re.I) and path not in wanted]
    if words and stale:
        names = ", ".join(str(it.relative_to(CRATE)) for it in stale)
        sys.exit(f"widths.py: not as those of 32 bytes or of IPv4: {names}")


main(sys.argv[1:])
