#!/usr/bin/env python3
"""Writes docs/api/CRATE.md for each crate of the product: what the crate gives its callers, with the contracts.

usage: api_pages.py [--check]

A page has the public items of the crate's sources in the order of its modules: the signature with its clauses, as the
source has them, and the doc comment. Before the items of a module are the imports of the words that clauses use. An
item is public if it is `pub`, or a function of a public trait; a function in an `impl` of a trait has the trait's
contract. Nothing of a body is shown, and no private field.

With --check it writes nothing, prints a line for each page that differs from its sources, and then ends with status 1.
"""
import pathlib
import re
import sys

sys.dont_write_bytecode = True

TOP = pathlib.Path(__file__).resolve().parents[1]
FOLDER = TOP / "docs" / "api"
CRATES = (
    "rart", "rart_cidr", "rart_laws", "rart_nodes", "rart_shape", "rart_trie", "rart_keys", "rart_parts", "rart_maps",
    "rart_block",
)

# The head of an item that callers see, of a function of a trait, of an `impl` or a trait, and of a module.
ITEM = re.compile(r"^ *pub (?:const |unsafe )*(fn|struct|enum|trait|type|const) (\w+)")
TRAIT_FN = re.compile(r"^    (fn) (\w+)")
BLOCK = re.compile(r"^(impl|pub trait|trait)\b(.*)")
WORDS = re.compile(r"^(ghost use Rattle\.rart\w*\.[^;]*;)$", re.M)
MODULE = re.compile(r"^(?:pub(?:\(\w+\))? )?mod (\w+);$", re.M)
# The type that an `impl` is for, and its trait.
TARGET = re.compile(r"^(?:.*\bfor )?(?:&'?\w* ?)?((?:\w+::)*\w+)")
LINK = re.compile(r"\[(`[^`\]]+`)\](?:\([^)]*\))?")


def doc_above(lines, at):
    """The doc comment that ends above a line, past attributes and plain comments, without its slashes."""
    found = []
    while at and re.match(r"^ *(///|//|#\[)", lines[at - 1]):
        at -= 1
        text = lines[at].strip()
        if text.startswith("///"):
            found.append(text[3:].removeprefix(" "))
    return found[::-1]


def head_of(lines, at, kind):
    """The lines of an item without its body: of a function up to it, of a type with its public fields."""
    head = []
    for line in lines[at:]:
        text = line.rstrip()
        if kind == "fn":
            if text.strip() == "{" or text.strip() == "{}":
                break
            if text.endswith(" {") and not text.endswith("{ {"):
                head.append(text.removesuffix(" {"))
                break
            head.append(text.removesuffix(" {}"))
            if text.endswith((";", " {}")):
                break
        else:
            head.append(text)
            if text in ("}", ")") or text.endswith(";") or (len(head) == 1 and text.endswith("{}")):
                break
            if kind == "trait":
                break
    return head


def fields_of(head):
    """A type without its private and ghost fields, their comments and attributes."""
    kept, note = [], []
    is_enum = "enum" in head[0]
    for line in head[1:-1]:
        text = line.strip()
        if text.startswith(("//", "#[")):
            note += [line] if text.startswith("///") else []
        elif text.startswith("pub ") or is_enum:
            kept += [*note, line]
            note = []
        elif not text.startswith(("ghost ", "pub(")):
            note = []
    return [head[0], *kept, head[-1]] if kept or len(head) == 1 else [head[0].removesuffix(" {")]


def members_of(lines, at):
    """A trait without its functions: its types, constants, ghost members and laws, with their comments."""
    head, note, whole = [lines[at].rstrip().removesuffix(" {") + " {"], [], True
    for line in lines[at + 1 :]:
        text = line.strip()
        if line == "}":
            break
        if not whole or re.match(r"^    (?:type|const|ghost (?!use\b))", line):
            head += [*note, line] if whole else [line]
            note, whole = [], text.endswith(";")
        else:
            note = [*note, line] if text.startswith("///") else []
    return [*head, "}"] if len(head) > 1 else [head[0].removesuffix(" {")]


def dedent(lines):
    """Lines without the blanks that all of them begin with."""
    width = min((len(line) - len(line.lstrip()) for line in lines if line.strip()), default=0)
    return [line[width:] for line in lines]


def owner_of(rest, word):
    """The name of the type or trait that a block is of, and whether it implements a trait."""
    text = re.sub(r"^ *<(?:[^<>]|<[^<>]*>)*>", "", rest).strip() if word == "impl" else rest.strip()
    is_of_trait = word == "impl" and " for " in text
    return TARGET.match(text)[1], is_of_trait


def items_of(text):
    """Each public item of a source: its name, its head and its doc comment."""
    lines = text.split("\n")
    owner, of_trait, is_trait = "", False, False
    for at, line in enumerate(lines):
        block = BLOCK.match(line)
        if block:
            word = block[1].split()[-1]
            owner, of_trait = owner_of(block[2], word)
            is_trait = block[1] == "pub trait"
        found = ITEM.match(line) or (is_trait and TRAIT_FN.match(line))
        if found and not of_trait or (found and not line.startswith(" ")):
            kind, name = found[1], found[2]
            head = head_of(lines, at, kind)
            if kind in ("struct", "enum"):
                head = fields_of(head)
            if kind == "trait":
                head = members_of(lines, at)
            inside = line.startswith(" ") and owner
            yield f"{owner}::{name}" if inside else name, dedent(head), doc_above(lines, at)
        if line == "}":
            owner, of_trait, is_trait = "", False, False


def sources_of(crate):
    """The sources of a crate in the order of its modules, with the paths of these."""
    def walk(file, folder, path):
        text = file.read_text()
        yield path, text
        for name in MODULE.findall(text):
            below = folder / f"{name}.rt"
            if below.is_file() and "tests" not in name:
                yield from walk(below, folder / name, [*path, name])

    top = TOP / "crates" / crate / "src"
    yield from walk(top / "lib.rt", top, [])


def page_of(crate):
    """The text of a crate's page."""
    out = [f"# `{crate}`", "", "Written by `tools/api_pages.py` from the sources; nothing here is changed by hand.", ""]
    for path, text in sources_of(crate):
        items = list(items_of(text))
        if not items:
            continue
        said = [line[3:].strip() for line in text.split("\n") if line.startswith("//!")]
        out += [f"## {'::'.join(path) or crate}", "", *said, ""]
        words = WORDS.findall(text)
        out += ["```rust", *words, "```", ""] if words else []
        for name, head, doc in items:
            out += [f"### `{name}`", "", "```rust", *head, "```", ""]
            doc = [f"###{line}" if line.startswith("# ") else LINK.sub(r"\1", line) for line in doc]
            out += [line.replace("```ignore", "```rust") for line in doc] + [""] * bool(doc)
    text = "\n".join(out)
    return re.sub(r"\n{3,}", "\n\n", text).rstrip("\n") + "\n"


def main():
    if sys.argv[1:] not in ([], ["--check"]):
        sys.exit("usage: api_pages.py [--check]")
    pages = {FOLDER / f"{crate}.md": page_of(crate) for crate in CRATES}
    if not sys.argv[1:]:
        FOLDER.mkdir(exist_ok=True)
        for path, text in pages.items():
            path.write_text(text)
        return 0
    strange = sorted(set(FOLDER.glob("*")) - set(pages))
    stale = [path for path, text in pages.items() if not path.is_file() or path.read_text() != text]
    for path in [*stale, *strange]:
        print(f"{path.relative_to(TOP)}: not as tools/api_pages.py writes it", file=sys.stderr)
    return 1 if stale or strange else 0


if __name__ == "__main__":
    sys.exit(main())
