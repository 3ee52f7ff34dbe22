#!/usr/bin/env python3
"""Tests the examples of README.md, docs/GUIDE.md and the map's doc comments.

Each paragraph of a `rust` block is, line for line, in a source of the worked examples, which the gate proves. So is
each call in README's table of uses, in the file of its row, and each example of `crates/rart`, however its lines are
broken. The other blocks of GUIDE are lines to be read: tools/guide/fragments.txt has a function for the blocks of a
section, named in double braces, and what results from both must compile in a copy of the repository. Nothing of it is
proved.

Prints a line for each fault, and then ends with status 1.
"""
import pathlib
import re
import shutil
import subprocess
import sys
import tempfile

sys.dont_write_bytecode = True

TOP = pathlib.Path(__file__).resolve().parent.parent
EXAMPLES = ("rart_first", "rart_uses")
BELOW = ("rart_block", "rart_parts", "rart_maps", "rart_keys", "rart_trie", "rart_shape", "rart_nodes", "rart_laws",
         "rart", "rart_cidr")

# Far more seconds than the compiler takes, on a busy machine too.
SECONDS = 1800

BLOCK = re.compile(r"^#+ ([^\n]*)$|^```rust\n(.*?)^```$", re.S | re.M)
USE = re.compile(r"^use [^;]*;\n", re.M)
PLACE = re.compile(r"^\{\{(.*)\}\}\n", re.M)
EXAMPLE = re.compile(r"^ */// ```ignore\n(.*?)^ */// ```$", re.S | re.M)
ROW = re.compile(r"^\|.*\| `(\w+\.rt)` \|$", re.M)


def blocks(page):
    """The rust blocks of a page, each with its heading."""
    heading = ""
    for found in BLOCK.finditer((TOP / page).read_text()):
        if found[2] is None:
            heading = found[1]
        else:
            yield heading, found[2]


def is_in_one(block, sources):
    """Whether each paragraph of a block is in one of the sources."""
    return any(all(part.strip("\n") in source for part in block.split("\n\n")) for source in sources)


def joined(source):
    """The source without blanks, and without the comma that the format puts after a last argument on its own line."""
    return "".join(source.split()).replace(",)", ")")


def example_faults(sources):
    """The examples in the map's doc comments that no source has, however their lines are broken."""
    texts = [joined(source) for source in sources]
    found_one = False
    for path in sorted((TOP / "crates" / "rart" / "src").rglob("*.rt")):
        for found in EXAMPLE.finditer(path.read_text()):
            found_one = True
            example = joined("".join(line.strip().removeprefix("///") for line in found[1].splitlines()))
            if not any(example in text for text in texts):
                yield f"{path.relative_to(TOP)}: no source has the example {example}"
    if not found_one:
        yield "no doc comment of the map has an example"


def table_faults():
    """The calls of README's table of uses that the file of their row has not."""
    rows = list(ROW.finditer((TOP / "README.md").read_text()))
    if not rows:
        yield "README.md has no table of uses"
    for row in rows:
        source = (TOP / "crates" / "rart_uses" / "src" / row[1]).read_text()
        for call in re.findall(r"`([^`]+)`", row[0]):
            if call != row[1] and "".join(call.split()) not in "".join(source.split()):
                yield f"README.md: {row[1]} has no {call}"


def program(fragments):
    """The source that has each fragment in the function of its section, and what is wrong with the names of those."""
    template = (TOP / "tools" / "guide" / "fragments.txt").read_text()
    named = PLACE.findall(template)
    wrong = [f"docs/GUIDE.md: no source has a block of: {name}" for name in fragments if name not in named]
    wrong += [f"docs/GUIDE.md has no block of: {name}" for name in named if name not in fragments]
    text = "".join(fragments.values())
    uses = "".join(USE.findall(text))
    body = PLACE.sub(lambda place: USE.sub("", fragments.get(place[1], "")), template)
    first, rest = body.split("\n\n", 1)
    return f"{first}\n\n{uses}{rest}", wrong


def compile_fault(source):
    """What the compiler says of a program of its own over copies of the libraries; nothing if it compiles and runs."""
    with tempfile.TemporaryDirectory(prefix="doc-blocks-") as scratch:
        folder = pathlib.Path(scratch)
        lines = [line for line in (TOP / "crates.txt").read_text().splitlines() if line.split(":")[0] in BELOW]
        lines.append(f"guide: {' '.join(reversed(BELOW))}")
        (folder / "crates.txt").write_text("\n".join(lines) + "\n")
        shutil.copy(TOP / "HANDLES", folder)
        for crate in BELOW:
            for part in ("src", "specs", "proofs"):
                if (TOP / "crates" / crate / part).is_dir():
                    shutil.copytree(TOP / "crates" / crate / part, folder / "crates" / crate / part)
        crate = folder / "crates" / "guide"
        (crate / "src").mkdir(parents=True)
        (crate / "src" / "main.rt").write_text(source)
        done = subprocess.run(
            ["rt", "try"], cwd=crate, stdin=subprocess.DEVNULL, capture_output=True, text=True, timeout=SECONDS,
            check=False,
        )
    return "" if done.stdout == "compiled\n" else f"docs/GUIDE.md does not compile: {done.stdout}{done.stderr}"


def main() -> int:
    sources = [path.read_text() for name in EXAMPLES for path in (TOP / "crates" / name / "src").rglob("*.rt")]
    found = [f"README.md: no source has a block of: {name}" for name, block in blocks("README.md")
             if not is_in_one(block, sources)]
    found += example_faults(sources)
    found += table_faults()
    fragments = {}
    for name, block in blocks("docs/GUIDE.md"):
        if not is_in_one(block, sources):
            fragments[name] = fragments.get(name, "") + block
    source, wrong = program(fragments)
    found += wrong
    if not found:
        found += filter(None, [compile_fault(source)])
    print(*found, sep="\n", file=sys.stderr, end="\n" if found else "")
    return 1 if found else 0


if __name__ == "__main__":
    sys.exit(main())
