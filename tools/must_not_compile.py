#!/usr/bin/env python3
"""Tries bodies that must not compile, each in a copy of the repository.

usage: must_not_compile.py [PASSED FAILED]

A row of BODIES replaces one text of one source file. The row passes if the compiler refuses the copy with the errors
of the row and no others. The check stops there, before it proves anything. A row of MISUSES is a Rust program over the
bindings that rustc refuses; without cargo these are skipped.

PASSED and FAILED are the counts of the step before. The last line adds the rows to them.
"""
import concurrent.futures
import os
import pathlib
import re
import shutil
import signal
import subprocess
import sys
import tempfile
import threading
import typing

sys.dont_write_bytecode = True

TOP = pathlib.Path(__file__).resolve().parents[1]

# The compiler answers within seconds, unless the machine is very busy.
SECONDS = 1800

# The first line of a check that continues with its proofs: the compiler has no error.
ACCEPTED = re.compile(r"so far: 0 of \d+ functions")

# The help that follows an error may change with the toolchain.
ERROR = re.compile(r"^(\S+?):\d+:\d+: (error\[[\w-]+\]: .*?)(?:: help: .*)?$", re.M)


class Body(typing.NamedTuple):
    """What a wrong body does, its place, the text before and after, and the compiler's errors.

    `hidden` are the errors instead where the library of the crate below was made without its private items.
    """

    does: str
    crate: str
    file: str
    old: str
    new: str
    errors: tuple
    hidden: tuple = ()


LOOK_UP = ("rart_nodes", "src/node/calls/look_up.rt", "self.descend(key, counter)")
LENDING = ("rart_nodes", "src/node/calls/lending.rt", "for_each_view_of(&mut walk, &mut path, counter, f);")
VISITOR = ("rart_nodes", "src/node/intersect/visitor.rt", "f(left, right);")
SHRINK = ("rart_trie", "src/node/storage/shrink.rt")
GROW = ("rart_trie", "src/node/storage/grow.rt")
SHARED_CHILDREN = ("rart_nodes", "src/node/intersect/shared_children.rt")
TREES = ("rart_nodes", "src/node/intersect.rt", "let (left_root, right_root) = tops.0.enter_pair(tops.1, counter);")
OF_TREE = ("rart", "src/tree.rt", "self.seen().get_bytes_counted(key, &mut Visits::new())")

BODIES = (
    Body(
        "a look-up counts with its own counter",
        *LOOK_UP,
        "self.descend(key, &mut rart_trie::Visits::new())",
        ("error[mismatched-types]: expected `&mut C`, found `&mut Visits`",),
    ),
    Body(
        "a walk counts with its own counter",
        *LENDING,
        "for_each_view_of(&mut walk, &mut path, &mut rart_trie::Visits::new(), f);",
        ("error[mismatched-types]: expected `&mut C`, found `&mut Visits`",),
    ),
    Body(
        "a look-up reads the root without a visit",
        *LOOK_UP,
        "self.root.and_then(|node| node.value())",
        ("error[private-field]: field `root` of struct `Seen` is private",),
    ),
    Body(
        "a look-up reads the node of the top without a visit",
        *LOOK_UP,
        "self.top().and_then(|top| top.node.value())",
        ("error[private-field]: field `node` of struct `Shared` is private",),
    ),
    Body(
        "a look-up reads the value of the top without a visit",
        *LOOK_UP,
        "self.top().and_then(|top| top.value())",
        ("error[unknown-method]: no method named `value` found for type `Shared<<K as KeyTrait>::PartialType, V, C>`",),
    ),
    Body(
        "a counted look-up reads the uncounted iterator",
        *LOOK_UP,
        "match self.iter() { Ok(_) => None, Err(_) => None }",
        (
            "error[unknown-method]: the method `iter` takes `self` as `Seen<K, V, Visits>`, and is called on "
            "`Seen<K, V, C>`",
        ),
    ),
    Body(
        "a look-up visits the top together with itself",
        *LOOK_UP,
        "self.top().and_then(|top| top.enter_pair(top, counter).1.value())",
        (
            "error[mismatched-types]: expected `Shared<<K as KeyTrait>::PartialType, _, Paired<C>>`, found "
            "`Shared<<K as KeyTrait>::PartialType, V, C>`",
        ),
    ),
    Body(
        "children of one node are visited in pairs",
        *SHARED_CHILDREN,
        "while let Some((byte, child)) = branches.next_child() {\n        if let Some(other) = right.child(byte) {",
        "while let Some((byte, child)) = branches.next_child() {\n        if let Some(other) = Some(child) {",
        ("error[mismatched-types]: expected `Shared<P, W, Paired<C>>`, found `Shared<P, V, C>`",),
    ),
    Body(
        "an intersection visits the right root as a left one",
        *TREES,
        "let _right_root = tops.1.enter(counter);\n"
        "    let (left_root, right_root) = tops.0.enter_pair(tops.1, counter);",
        (
            "error[unknown-method]: the method `enter` exists for `Shared<<K as KeyTrait>::PartialType, W, "
            "Paired<C>>`, but its bounds are not met",
        ),
    ),
    Body(
        "an intersection looks up in the right tree",
        *TREES,
        "let _value = right.get_bytes_counted(&[], counter);\n"
        "    let (left_root, right_root) = tops.0.enter_pair(tops.1, counter);",
        (
            "error[unknown-method]: the method `get_bytes_counted` exists for `Seen<K, W, Paired<C>>`, but "
            "its bounds are not met",
        ),
    ),
    Body(
        "a look-up shows a node without a visit",
        *LOOK_UP,
        "self.top().and_then(|top| {\n"
        "            let prefix = top.node.prefix();\n"
        "            crate::node::seen::Entered { node: top.node, prefix, of: top.of }.value()\n"
        "        })",
        (
            "error[private-field]: field `node` of struct `Shared` is private",
            "error[private-item]: method `prefix` is private",
            "error[private-field]: field `node` of struct `Entered` is private",
            "error[private-field]: field `node` of struct `Shared` is private",
            "error[private-field]: field `prefix` of struct `Entered` is private",
            "error[private-field]: field `of` of struct `Entered` is private",
            "error[private-field]: field `of` of struct `Shared` is private",
        ),
        (
            "error[private-field]: field `node` of struct `Shared` is private",
            "error[unknown-method]: no method named `prefix` found for type "
            "`DefaultNode<<K as KeyTrait>::PartialType, V>`",
            "error[private-field]: field `node` of struct `Entered` is private",
            "error[private-field]: field `node` of struct `Shared` is private",
            "error[private-field]: field `prefix` of struct `Entered` is private",
            "error[private-field]: field `of` of struct `Entered` is private",
            "error[private-field]: field `of` of struct `Shared` is private",
        ),
    ),
    Body(
        "a look-up makes a shared tree of its own",
        *LOOK_UP,
        "Seen { root: self.root, alloc: self.alloc, longest: 0, of: self.of }.descend(key, counter)",
        (
            "error[private-field]: field `root` of struct `Seen` is private",
            "error[private-field]: field `root` of struct `Seen` is private",
            "error[private-field]: field `alloc` of struct `Seen` is private",
            "error[private-field]: field `alloc` of struct `Seen` is private",
            "error[private-field]: field `longest` of struct `Seen` is private",
            "error[private-field]: field `of` of struct `Seen` is private",
            "error[private-field]: field `of` of struct `Seen` is private",
        ),
    ),
    Body(
        "a look-up sets the counter back",
        *LOOK_UP,
        "let before = *counter;\n        let value = self.descend(key, counter);\n        *counter = before;\n"
        "        value",
        ("error[move-out-of-place]: cannot move out of `*counter` which is behind a mutable reference",),
    ),
    Body(
        "the map makes a shared tree by its fields",
        *OF_TREE,
        "Seen { root: self.root.as_ref(), alloc: self.alloc, longest: 0, of: std::marker::PhantomData }\n"
        "            .get_bytes_counted(key, &mut Visits::new())",
        (
            "error[private-field]: field `root` of struct `Seen` is private",
            "error[private-field]: field `alloc` of struct `Seen` is private",
            "error[private-field]: field `longest` of struct `Seen` is private",
            "error[private-field]: field `of` of struct `Seen` is private",
        ),
    ),
    Body(
        "the map reads the root of a shared tree",
        *OF_TREE,
        "self.seen::<Visits>().root.and_then(|node| node.value())",
        ("error[private-field]: field `root` of struct `Seen` is private",),
    ),
    Body(
        "the map reads the top of a shared tree",
        *OF_TREE,
        "self.seen::<Visits>().top().and_then(|top| top.enter(&mut Visits::new()).value())",
        (
            "error[private-item]: method `top` is private",
            "error[private-item]: method `enter` is private",
            "error[private-item]: method `value` is private",
        ),
        ("error[unknown-method]: no method named `top` found for type `Seen<K, V, Visits>`",),
    ),
    Body(
        "the map reads the prefix of its root without a visit",
        *OF_TREE,
        "let _prefix = self.root.as_ref().map(|root| root.prefix());\n"
        "        self.seen().get_bytes_counted(key, &mut Visits::new())",
        ("error[private-item]: method `prefix` is private",),
        (
            "error[unknown-method]: no method named `prefix` found for type "
            "`DefaultNode<<K as KeyTrait>::PartialType, V>`",
        ),
    ),
    Body(
        "the map holds a visited node",
        *OF_TREE,
        "let _held: Option<rart_nodes::node::seen::Entered<'_, K::PartialType, V, Visits>> = None;\n"
        "        self.seen().get_bytes_counted(key, &mut Visits::new())",
        ("error[private-item]: struct `Entered` is private",),
        ("error[unknown-name]: cannot find type `Entered` in module `seen`",),
    ),
    Body(
        "an intersection exchanges the two values",
        *VISITOR,
        "f(right, left);",
        (
            "error[mismatched-types]: expected `&V`, found `&W`",
            "error[mismatched-types]: expected `&W`, found `&V`",
        ),
    ),
    Body(
        "a deletion removes the child before it allocates the smaller storage",
        *SHRINK,
        "let mut next = new_sorted(alloc)?;\n                let child = map.delete_child(b);\n"
        "                next.fill_from_indexed(map);",
        "let child = map.delete_child(b);\n                let mut next = new_sorted(alloc)?;\n"
        "                next.fill_from_indexed(map);",
        (
            "error[linear-value-let-go]: control leaves here and lets `child` go, and `Option<N>` is not `Drop`, since "
            "`N` is not",
        ),
    ),
    Body(
        "a wider storage loses a child",
        *GROW,
        "keys.move_to_sorted(map, &mut next);",
        "keys.move_to_sorted(map, &mut next);\n                let _lost = next.delete_child(b);",
        (
            "error[linear-value-let-go]: `_lost` is let go where its block ends, and `Option<N>` is not `Drop`, since "
            "`N` is not",
        ),
    ),
    Body(
        "a wider storage loses the value",
        *GROW,
        "fill(next.extra_mut(), map.head_mut().take());",
        "let _lost = map.head_mut().take();",
        (
            "error[linear-value-let-go]: `_lost` is let go where its block ends, and `Option<V>` is not `Drop`, since "
            "`V` is not",
        ),
    ),
    Body(
        "an emptied block keeps its memory",
        "rart_block",
        "src/block.rt",
        "room.free();\n        (head, keys)",
        "(head, keys)",
        (
            "error[linear-value-let-go]: `room` is let go where its block ends, and `Room<Header<H, K>, T, W>` is not "
            "`Drop`",
        ),
    ),
)


def copy_sources(folder):
    """Copies the sources, specifications and proofs of every crate."""
    for name in ("crates.txt", "HANDLES"):
        shutil.copy(TOP / name, folder / name)
    for crate in (TOP / "crates").iterdir():
        for part in ("src", "specs", "proofs"):
            if (crate / part).is_dir():
                shutil.copytree(crate / part, folder / "crates" / crate.name / part)


def kill(check):
    """Ends the check and what it started."""
    try:
        os.killpg(check.pid, signal.SIGKILL)
    except ProcessLookupError:
        pass


def is_checked(crate, group):
    """Returns whether a process of the group checks the crate itself, and not a library below it."""
    for page in pathlib.Path("/proc").glob("[0-9]*"):
        try:
            words = (page / "cmdline").read_bytes().split(b"\0")
            if os.getpgid(int(page.name)) == group and crate.encode() in words:
                return True
        except OSError:
            continue
    return False


def compiler_output(folder):
    """Returns what the check of the crate in `folder` prints until it ends, begins a proof, or its time is over."""
    command = ["rt", "check", "--only", "", "--jobs", "1"]
    pipes = {"stdin": subprocess.DEVNULL, "stdout": subprocess.PIPE, "stderr": subprocess.STDOUT}
    lines = []
    with subprocess.Popen(command, cwd=folder, text=True, errors="replace", start_new_session=True, **pipes) as check:
        limit = threading.Timer(SECONDS, kill, [check])
        limit.start()
        for line in check.stdout:
            lines.append(line)
            if ACCEPTED.match(line) and is_checked(folder.name, check.pid):
                kill(check)
                break
        check.wait()
        limit.cancel()
    return "".join(lines)


def fault(body):
    """Returns why the row fails, or an empty text if the compiler refuses the body with the row's errors alone."""
    with tempfile.TemporaryDirectory(prefix="must-not-compile-") as scratch:
        copy_sources(pathlib.Path(scratch))
        folder = pathlib.Path(scratch) / "crates" / body.crate
        text = (folder / body.file).read_text()
        if text.count(body.old) != 1:
            return f"{body.file} has the text that the row replaces {text.count(body.old)} times"
        (folder / body.file).write_text(text.replace(body.old, body.new))
        output = compiler_output(folder)
    errors = ERROR.findall(output)
    wanted = [[(body.file, error) for error in some] for some in (body.errors, body.hidden) if some]
    if errors in wanted:
        return ""
    if not errors:
        return f"the compiler accepts it: {output[-300:]!r}"
    return f"the compiler has other errors: {errors}"


class Misuse(typing.NamedTuple):
    """What a Rust program over the bindings does wrong, its `main`, and the codes of the compiler's errors."""

    does: str
    main: str
    errors: tuple


MISUSES = [
    Misuse(
        "in Rust, an iterator is kept over an insertion",
        """
        let mut map: rart_proved::U64Map = [("a", 1)].into_iter().collect();
        let pairs = map.iter();
        map.insert("b", 2);
        assert_eq!(pairs.count(), 2);
        """,
        ("E0502",),
    ),
    Misuse(
        "in Rust, a value outlives its removal",
        """
        let mut map: rart_proved::Map<String> = rart_proved::Map::new();
        map.insert("a", String::from("one"));
        let value = map.get("a");
        map.remove("a");
        assert_eq!(value.map(String::as_str), Some("one"));
        """,
        ("E0502",),
    ),
    Misuse(
        "in Rust, a map goes to another thread",
        """
        let map = rart_proved::U64Map::<rart_proved::W32>::new();
        std::thread::spawn(move || map.len()).join().unwrap();
        """,
        ("E0277",),
    ),
    Misuse(
        "in Rust, a longest match is kept over an insertion",
        """
        let mut table = rart_proved::NetTable4::new();
        let any = std::net::Ipv4Addr::UNSPECIFIED;
        table.insert(any, 0, String::from("default"));
        let found = table.longest_match(any);
        table.insert(any, 8, String::from("zero"));
        assert!(found.is_some());
        """,
        ("E0502",),
    ),
    Misuse(
        "in Rust, a table lends a value twice to be changed",
        """
        let mut table = rart_proved::NetTable6::new();
        let any = std::net::Ipv6Addr::UNSPECIFIED;
        table.insert(any, 0, 1);
        table.insert(any, 8, 2);
        let (first, second) = (table.get_mut(any, 0), table.get_mut(any, 8));
        assert_ne!(first, second);
        """,
        ("E0499",),
    ),
    Misuse(
        "in Rust, a table goes to another thread",
        """
        let table = rart_proved::NetTable4::<u64>::new();
        std::thread::spawn(move || table.len()).join().unwrap();
        """,
        ("E0277",),
    ),
    Misuse(
        "in Rust, two threads read one map",
        """
        let map = rart_proved::U64Map::<rart_proved::W32>::new();
        let len = std::thread::scope(|scope| scope.spawn(|| map.len()).join().unwrap());
        assert_eq!(len, map.len());
        """,
        ("E0277",),
    ),
    Misuse(
        "in Rust, two threads read one table",
        """
        let table = rart_proved::NetTable6::<u64>::new();
        let len = std::thread::scope(|scope| scope.spawn(|| table.len()).join().unwrap());
        assert_eq!(len, table.len());
        """,
        ("E0277",),
    ),
]

MANIFEST = """[package]
name = "misuse"
version = "0.1.0"
edition = "2024"

[dependencies]
rart_proved = {{ path = "{}" }}
"""


def rust_fault(misuse):
    """Returns why a misuse isn't refused as it must be."""
    with tempfile.TemporaryDirectory() as name:
        folder = pathlib.Path(name)
        (folder / "src").mkdir()
        (folder / "Cargo.toml").write_text(MANIFEST.format(TOP / "bindings" / "rust"))
        check = ["cargo", "check", "--offline", "--message-format=short", "--manifest-path", folder / "Cargo.toml"]
        for main, errors in (("", ()), (misuse.main, misuse.errors)):
            (folder / "src" / "main.rs").write_text(f"fn main() {{{main}}}\n")
            done = subprocess.run(check, stdout=subprocess.PIPE, stderr=subprocess.STDOUT, text=True, timeout=SECONDS)
            found = tuple(sorted(set(re.findall(r"error\[(E\d+)\]", done.stdout))))
            if found != errors or (done.returncode == 0) != (not errors):
                return f"errors {', '.join(found) or 'none'}, {', '.join(errors) or 'none'} wanted"
    return None


def main():
    passed, failed = (int(sys.argv[1]), int(sys.argv[2])) if len(sys.argv) == 3 else (0, 0)
    with concurrent.futures.ThreadPoolExecutor(max_workers=min(4, os.cpu_count() or 1)) as workers:
        for body, why in zip(BODIES, workers.map(fault, BODIES)):
            print(f"must not compile: {body.does}: {'FAILED: ' + why if why else 'refused'}", flush=True)
            failed += bool(why)
            passed += not why
        if not shutil.which("cargo"):
            print("skipped: misuses in Rust: there is no cargo")
        for misuse, why in zip(MISUSES, workers.map(rust_fault, MISUSES if shutil.which("cargo") else [])):
            print(f"must not compile: {misuse.does}: {'FAILED: ' + why if why else 'refused'}", flush=True)
            failed += bool(why)
            passed += not why
    print(f"{passed} passed, {failed} failed")
    return 1 if failed else 0


if __name__ == "__main__":
    sys.exit(main())
