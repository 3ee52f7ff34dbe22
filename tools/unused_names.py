#!/usr/bin/env python3
"""Lists the names of proofs/ that nothing uses, and those that are `pub` though no other file uses them.

usage: unused_names.py [--check]

A name that only its own declaration uses counts as unused. A name in the type of a `pub` lemma needs its `pub`, and so
does a record or a type that such a lemma names, as other files read its fields. Answers to goals, examples and words of
specs/ are not listed: the checker reads the first, and people the others. The last line has both numbers. With --check
the status is 1 unless both are 0.
"""
import pathlib
import re
import sys

TOP = pathlib.Path(__file__).resolve().parents[1]
NAME = r"[^\s:(){},.;]+"
DECLARED = re.compile(rf"^( *)((?:pub |abbrev |data |record )*)({NAME}) (?::|\(|\{{)")
TOKEN = re.compile(NAME)
IMPORT = re.compile(r"^ *use (Rattle\.\S+?)\.\{([^}]*)\}", re.M)
WHOLE = re.compile(r"^ *use (Rattle\.\S+) as (\S+)", re.M)
# A set of rules that other files may name: its members must be as public.
RULES = re.compile(r"^ *pub ruleset \S+ = \(([^)]*)\)", re.M)
# A lemma that a function's tactic uses.
TACTIC = re.compile(rf"\bcrate::(proofs(?:::\w+)+)::({NAME})")
WORDS = {"module", "use", "open", "let", "where", "in"}


def module_of(path):
    """Returns the name by which other files import a file."""
    parts = path.relative_to(TOP / "crates").with_suffix("").parts
    return ".".join(("Rattle", *parts))


def is_read_by_the_checker(path, text):
    """Returns whether each name of a file is read: answers, and examples of what a specification says."""
    return path.stem in ("Answers", "Invariants", "Proof", "Lib") or path.stem.endswith("Examples")


def declarations(text):
    """Yields each declared name with the words before it, and the lines of its declaration, each by its index."""
    lines = text.splitlines()
    record = None
    for at, line in enumerate(lines):
        depth = depth_of(line)
        if record is not None and line.strip() and depth <= record:
            record = None
        match = DECLARED.match(line)
        if record is not None or not match or match[3] in WORDS:
            continue
        kinds = match[2].split()
        if "record" in kinds or "data" in kinds:
            record = depth
        elif f"{match[3]} :" not in line:
            continue
        yield match[3], kinds, set(own_lines(lines, at, depth, match[3]))


def depth_of(line):
    return len(line) - len(line.lstrip())


def own_lines(lines, at, depth, name):
    """Yields the lines of a declaration: its type, and the clauses that follow it."""
    yield at
    for next_at in range(at + 1, len(lines)):
        line = lines[next_at]
        if line.strip() and depth_of(line) <= depth and line.split()[0] not in (name, ")", "]", "}"):
            return
        yield next_at


def read_sources():
    texts = {}
    for path in sorted((TOP / "crates").glob("*/*/**/*.antt")):
        if "out" not in path.parts:
            texts[path] = "\n".join(line.split("--")[0] for line in path.read_text().splitlines())
    return texts


def names_used_elsewhere(texts):
    """Returns the pairs of module and name that some file imports, names by an alias of the module, has as a rule of a
    public set, or names in a tactic of a source."""
    used = set()
    for path in sorted((TOP / "crates").glob("*/src/**/*.rt")):
        crate = path.relative_to(TOP / "crates").parts[0]
        for module, name in TACTIC.findall(path.read_text()):
            used.add((".".join(("Rattle", crate, *module.split("::"))), name))
    for path, text in texts.items():
        for names in RULES.findall(text):
            used.update((module_of(path), name.strip()) for name in names.split(","))
        for module, names in IMPORT.findall(text):
            used.update((module, name.strip().split(" as ")[0]) for name in names.split(","))
        for module, alias in WHOLE.findall(text):
            used.update((module, name) for name in re.findall(rf"\b{re.escape(alias)}\.({NAME})", text))
    return used


def type_lines(name, own, lines):
    """Returns the lines of a declaration before its first clause."""
    begins = min(own)
    clause = re.compile(rf" *{re.escape(name)}(?: .*)? =")
    ends = [at for at in own if at > begins and clause.match(lines[at])]
    return {at for at in own if at < min(ends, default=len(lines))}


def is_named(name, kinds, declared, lines):
    """Returns whether the type of a `pub` lemma names this one, or the lemma names this record or type."""
    is_type = bool({"record", "abbrev", "data"} & set(kinds))
    for other, other_kinds, own in declared:
        if other == name or "pub" not in other_kinds:
            continue
        places = own if is_type else type_lines(other, own, lines)
        if any(name in TOKEN.findall(lines[at]) for at in places):
            return True
    return False


def main(arguments):
    if arguments not in ([], ["--check"]):
        print(__doc__.split("\n\n")[1], file=sys.stderr)
        return 2
    texts = read_sources()
    elsewhere = names_used_elsewhere(texts)
    unused, needless = [], []
    for path, text in texts.items():
        if "proofs" not in path.parts or is_read_by_the_checker(path, text):
            continue
        lines = text.splitlines()
        declared = list(declarations(text))
        for name, kinds, own in declared:
            others = (line for at, line in enumerate(lines) if at not in own and "use Rattle" not in line)
            here = any(name in TOKEN.findall(line) for line in others)
            place = f"{path.relative_to(TOP)}: {name}"
            if (module_of(path), name) in elsewhere:
                continue
            if not here:
                unused.append(place)
            elif "pub" in kinds and not is_named(name, kinds, declared, lines):
                needless.append(place)
    for place in unused:
        print(f"unused: {place}")
    for place in needless:
        print(f"needless pub: {place}")
    print(f"{len(unused)} unused, {len(needless)} needless pub")
    return 1 if arguments and (unused or needless) else 0


if __name__ == "__main__":
    sys.exit(main(sys.argv[1:]))
