#!/usr/bin/env python3
"""Tries the edits that must be refused, each by a check of the function that it changes.

usage: must_fail.py [--edits FOLDER] [--log FILE] [NAME]...

A NAME is a crate, or one of its edits as CRATE/EDIT. Without names all edits are tried. Those of a crate are the files
crates/CRATE/must-fail/*.edit, of FOLDER if it is given. An edit has these lines:

  file: PATH        a file of the crate
  function: PATH    the function that is changed, by its path below the crate, as a check prints it
  goal: NAME        a goal that must stay open, as `returns-clause-LABEL`; further such lines may follow
  old: TEXT         a text that occurs once in the file, the first in the body of the function
  new: TEXT         what replaces it; further pairs of lines may follow

An edit passes if the edited crate can be read and those goals of the function stay open. The check of a function also
checks those that it calls; a goal of theirs doesn't count. Edits of different bodies are tried by one check, since the
proof of a function reads only the contracts of the others. An edit that changes more than one body or isn't refused so
is tried alone. Each check reuses the proofs of the checks before it. At last the functions are checked without the
edits, over the same proofs, and must be proved.

The crates below must be built: `rt lib` builds them. With --log, the output of an `rt ci` that runs in this folder, the
edits of a crate wait until it has proved them. Half of the processors try edits while it runs, and all of them after.

Prints a line for each edit. The last line is `N passed, M failed`.
"""
import argparse
import concurrent.futures
import contextlib
import os
import pathlib
import re
import shutil
import subprocess
import sys
import tempfile
import threading
import time

sys.dont_write_bytecode = True

TOP = pathlib.Path(__file__).resolve().parents[1]

PARTS = ("src", "specs", "proofs")

# A message with its place: a note or an error, the file, and the text.
MESSAGE = re.compile(r"^(note: )?(?:\./)?(\S+?):\d+:\d+: (error: )?(.*)$", re.M)
# The name of an open goal in its text: where an answer doesn't prove it, or in a body.
GOAL = re.compile(r"^`([^`]+)`: |\(`([^`]+)`\)")
# A message that goes on below: a long one is broken behind a name, as before `has no field`.
BROKEN = re.compile(r"^((?:note: )?\S+:\d+:\d+: .*)\n +(?=\S)", re.M)
# A verdict on a function, a type or an `impl`.
VERDICT = re.compile(r"^(?:fn|struct|enum|union|trait|impl|type|const|static) \S+: ")
# What an error says of a text that can't be read: no contract was tried.
UNREAD = re.compile(
    r"is not in scope|has no field|has no `|is no name|operand is missing|expected the end|cannot continue"
    r"|was not admitted"
)
# What a verdict says of a function that calls one which isn't proved.
UNPROVED_CALLEE = re.compile(r"which (?:is|are) (?:not (?:proved|stated|assumed)|refused)")
# What a verdict says of a function in a cycle of calls, whose functions have one proof: an edit may make one.
CYCLE = re.compile(r"cycle of calls|/\+")
# What a check says of libraries that don't fit, and of its own limits.
STALE = re.compile(r"Run the lower steps again|(?:went over|met) a limit of this run")

# The first line of a function, and what declares more than a body does.
HEAD = re.compile(r'^( *)(?:pub(?:\([^)]*\))? )?(?:(?:const|unsafe|extern "C") )*fn (\w+)', re.M)
ITEM = re.compile(r"\b(?:fn|impl|trait|struct|enum|type|const|static|mod|use|macro_rules|ensures|requires)\b")

# What `rt ci` prints of a crate that it proved, or that an earlier run proved of the same files.
PROVED = re.compile(r"^rt: (\w+) (?:proved$|is kept: )", re.M)
# The last line of a run of `rt ci`.
ENDED = re.compile(r"\d+ passed, ")

# Seconds between two looks at the output of `rt ci`, and far more than a check takes on a busy machine.
PAUSE = 5
LIMIT = 3600

# More than the kB of memory that a check of an edit takes.
MEMORY = 4_000_000


def body_around(text, old):
    """Returns the name of the function in whose body a text stands, and where the body begins. Both may be empty.

    A body stands below a line that ends with `{`, up to a `}`, both at the indent of its `fn`.
    """
    at = text.find(old)
    heads = list(HEAD.finditer(text, 0, at + len(old))) if at >= 0 else []
    if not heads:
        return "", 0
    indent, name = heads[-1].groups()
    first = re.compile(rf"^{indent}(?:\S.* )?\{{(\}}?)$", re.M).search(text, heads[-1].start())
    last = re.compile(rf"^{indent}\}}", re.M).search(text, first.end()) if first and not first[1] else None
    return (name, first.end()) if last and first.end() < at and at + len(old) < last.start() else ("", 0)


class Edit:
    """An edit: its crate, its name, the changed function, and the pairs of texts with their files."""

    def __init__(self, path):
        self.crate, self.name, self.pairs = path.parents[1].name, path.stem, []
        self.function, self.goals, self.fault = "", [], ""
        file = old = ""
        for line in path.read_text().split("\n"):
            word, _, text = line.partition(":")
            text = text.removeprefix(" ")
            if word == "file":
                file = text.strip()
            elif word == "function":
                self.function = text.strip()
            elif word == "goal":
                self.goals.append(text.strip())
            elif word == "old":
                old = text
            elif word == "new":
                self.pairs.append((file, old, text))
                old = ""
        if not self.pairs or not self.function or not self.goals or not all(old for _, old, _ in self.pairs):
            self.fault = "it has no `function` or `goal`, or a `new` without its `old`"
        elif any(not file.startswith(tuple(f"{it}/" for it in PARTS)) or ".." in file for file, _, _ in self.pairs):
            self.fault = "its file is none of the crate"

    def apply(self, folder):
        """Changes the crate's files in `folder`. Returns why it can't, or an empty text."""
        if self.fault:
            return self.fault
        for at, (file, old, new) in enumerate(self.pairs):
            path = folder / file
            text = path.read_text() if path.is_file() else ""
            if text.count(old) != 1:
                return f"{file} has the old text {text.count(old)} times"
            if not at and body_around(text, old)[0] != self.function.split("::")[-1]:
                return f"the text is not in the body of {self.function}"
            path.write_text(text.replace(old, new))
        return ""

    def is_of_body(self, folder):
        """Whether it changes one body of the crate in `folder` and nothing else, on which another proof may rest."""
        files = {file for file, _, _ in self.pairs}
        text = (folder / self.pairs[0][0]).read_text() if (folder / self.pairs[0][0]).is_file() else ""
        bodies = {body_around(text, old) for _, old, _ in self.pairs}
        more = len(files) > 1 or len(bodies) > 1 or ("", 0) in bodies
        return not more and not any(ITEM.search(new) for _, _, new in self.pairs)


class Libraries:
    """The built libraries of this folder, checks of a crate over them, and how many crates may be tried at once."""

    def __init__(self, log):
        self.log, self.parent, self.free, self.busy = log, os.getppid(), threading.Condition(), 0
        page = subprocess.run(["rt", "doc"], capture_output=True, text=True, check=True).stdout.strip()
        self.kit = pathlib.Path(page).parent
        lines = (TOP / "crates.txt").read_text().splitlines()
        rows = (line.partition(":") for line in lines if line and not line.startswith("#"))
        # a static library's line has a word after its name
        self.named = {name.split()[0]: below.split() for name, _, below in rows}

    def lanes(self):
        """How many crates may be tried at once: as many after `rt ci` as processors and memory serve."""
        processors = os.cpu_count() or 1
        few = max(1, processors // 2)
        lines = self.log.read_text(errors="replace").splitlines() if self.log else []
        if self.log and not (lines and ENDED.match(lines[-1])):
            return few
        memory = pathlib.Path("/proc/meminfo")
        found = re.search(r"^MemAvailable: *(\d+)", memory.read_text() if memory.exists() else "", re.M)
        return max(few, min(processors, self.busy + (int(found[1]) // MEMORY if found else 0)))

    @contextlib.contextmanager
    def lane(self):
        """Waits until a crate may be tried, and counts it until it has been."""
        with self.free:
            while self.busy >= self.lanes():
                self.free.wait(PAUSE)
            self.busy += 1
        try:
            yield
        finally:
            with self.free:
                self.busy -= 1
                self.free.notify_all()

    def wait_for(self, crate):
        """Waits until `rt ci` has proved the crates below. Returns false if one is not proved, or `rt ci` has ended."""
        below = [name for name in self.named[crate] if name in self.named]
        while self.log:
            text = self.log.read_text(errors="replace")
            if set(PROVED.findall(text)).issuperset(below):
                break
            lines = text.splitlines()
            failed = any(line.startswith(f"rt: {name} NOT PROVED") or line.startswith(f"{name} NOT PROVED")
                         for name in below for line in lines)
            if failed or (lines and ENDED.match(lines[-1])) or os.getppid() != self.parent:
                return False
            time.sleep(PAUSE)
        return True

    def check(self, crate, functions, folder, kept):
        """Returns the output of a check of some functions of the crate in `folder`, up to the verdict on the last."""
        kit, root = self.kit, "main" if (folder / "src" / "main.rt").exists() else "lib"
        words = [kit / "bin" / "rattle", "check", "--crate-name", crate, f"src/{root}.rt"]
        for name in ("std", *self.named[crate]):
            built = TOP / "crates" / name / "out" / "rlib"
            if name in self.named:
                words += ["--extern", f"{name}={built / f'{name}.rlib'}", "-L", f"dependency={built}"]
            else:
                words += ["--extern", f"{name}={kit / 'rlibs' / f'{name}.rlib'}"]
        words += ["-L", f"dependency={kit / 'rlibs'}", "--logic-built", kit / "logic_built", "--jobs", "1"]
        words += ["--antt-project", kit / "rattle" / "logic" / "antt-project.json", "--links", f"{crate}="]
        words += [word for name in functions for word in ("--only", name)] + ["--incremental", kept]
        pipes = {"stdin": subprocess.DEVNULL, "stdout": subprocess.PIPE, "stderr": subprocess.STDOUT}
        wanted, output = {f"fn {crate}::{name}" for name in functions}, []
        with subprocess.Popen(words, cwd=folder, text=True, errors="replace", **pipes) as check:
            limit = threading.Timer(LIMIT, check.kill)
            limit.daemon = True
            limit.start()
            for line in check.stdout:
                output.append(line)
                wanted.discard(line.partition(": ")[0])
                # after the verdicts a check prints advice, for which it takes as long again
                if not wanted:
                    check.kill()
                    break
            limit.cancel()
        # a line that is cut off says less than it would
        return BROKEN.sub(r"\1 ", "".join(line for line in output if line.endswith("\n")))


def verdict_on(crate, function, output):
    """Returns the verdict on a function, or an empty text if the check gave none."""
    found = re.search(rf"^fn {re.escape(f'{crate}::{function}')}: (.*)$", output, re.M)
    return found[1] if found else ""


def is_refused(verdict):
    """Whether a function isn't proved for a reason of its own, and not because it calls one that isn't."""
    by_callee = UNPROVED_CALLEE.search(verdict) and "did not prove" not in verdict
    return verdict.startswith(("not proved", "no proof")) and not by_callee


def of_function(function, crate, output):
    """The part of an output that speaks of a function: the messages of its proof, and those above its verdict."""
    *above, name = function.split("::")
    folder = re.escape("".join(f"{it}/" for it in above))
    proof = re.compile(rf"^(?:note: )?(?:\./)?proofs/{folder}\+?{re.escape(name)}/[^/:]*\.antt:")
    lines = output.splitlines(keepends=True)
    mine = [line for line in lines if proof.match(line)]
    above = []
    for line in lines:
        if line.startswith(f"fn {crate}::{function}: "):
            break
        above = [] if VERDICT.match(line) else [*above, line]
    return "".join(mine) + "".join(line for line in above if line.startswith("note: "))


def unread_in(files, output):
    """Returns what the prover can't read in some files and in the specifications, if anything."""
    found = (text for _, file, error, text in MESSAGE.findall(output)
             if error and (file in files or file.startswith(("src/", "specs/"))) and UNREAD.search(text))
    return next(found, "")


def judge(edit, output):
    """Returns why the edit fails, and the goal that stays open. One of the two is empty."""
    verdict = verdict_on(edit.crate, edit.function, output)
    if not verdict or STALE.search(output):
        return f"the check gave no verdict on {edit.function}: {' / '.join(output.split())[-400:]}", ""
    if verdict.startswith("proved"):
        return f"NOT REFUSED: {edit.function} is still proved", ""
    if not is_refused(verdict):
        return f"no goal of {edit.function} is open: {verdict}", ""
    changed = {file for file, _, _ in edit.pairs}
    unread = unread_in(changed, output)
    if unread:
        return f"the prover can't read the edited text: {unread}", ""
    texts = [text for _, file, _, text in MESSAGE.findall(of_function(edit.function, edit.crate, output))
             if (file in changed or file.startswith("proofs/")) and GOAL.search(text) and not UNREAD.search(text)]
    if not texts:
        return f"no goal is named, or a proof names what the edit took away: {verdict}", ""
    texts_of = {"".join(GOAL.search(text).groups(default="")): text for text in texts}
    closed = [goal for goal in edit.goals if goal not in texts_of]
    if closed:
        return f"{' '.join(closed)} is not open, but {' '.join(texts_of)}", ""
    return "", texts_of[edit.goals[0]]


def copy_of(crate, folder):
    """Makes `folder` a copy of the crate's sources, specifications and proofs."""
    shutil.rmtree(folder, ignore_errors=True)
    for part in PARTS:
        if (TOP / "crates" / crate / part).is_dir():
            shutil.copytree(TOP / "crates" / crate / part, folder / part)


def apply_some(edits, folder):
    """Applies edits of different bodies to a copy of the crate, and returns them: those whose texts are there."""
    applied = []
    copy_of(edits[0].crate, folder)
    for edit in edits:
        if edit.is_of_body(folder) and all(edit.function != it.function for it in applied):
            texts = {file: (folder / file).read_text() for file, _, _ in edit.pairs if (folder / file).is_file()}
            if edit.apply(folder):
                for file, text in texts.items():
                    (folder / file).write_text(text)
            else:
                applied.append(edit)
    return applied


def try_alone(libraries, edit, folder, kept):
    """Tries an edit by itself. Returns why it fails, and the goal that it leaves open."""
    copy_of(edit.crate, folder)
    why = edit.apply(folder)
    return (why, "") if why else judge(edit, libraries.check(edit.crate, [edit.function], folder, kept))


def try_together(libraries, edits, folder, kept):
    """Tries edits in as few checks as their functions allow. Returns the goal of each that is refused.

    A function that calls an unproved one doesn't count unless a goal of its own is open, since that one may be changed
    too, nor does one whose cycle of calls has no proof yet.
    """
    goals, left = {}, edits
    while left:
        tried = apply_some(left, folder)
        if len(tried) < 2:
            # the texts of these are in each other's way, or they change more than a body
            return goals
        output = libraries.check(tried[0].crate, [it.function for it in tried], folder, kept)
        if not unread_in((), output):
            verdicts = [(it, verdict_on(it.crate, it.function, output)) for it in tried]
            apart = [it for it, said in verdicts
                     if not CYCLE.search(said) and (is_refused(said) or not UNPROVED_CALLEE.search(said))]
            answers = [(it, *judge(it, output)) for it in apart]
            goals.update({it: goal for it, why, goal in answers if not why})
        left = [it for it in left if it not in tried]
    return goals


def try_edits(libraries, crate, edits):
    """Tries the edits of a crate. Returns why each fails, and the goal that it leaves open."""
    if not libraries.wait_for(crate):
        return [("a crate below is not proved", "")] * len(edits)
    with libraries.lane(), tempfile.TemporaryDirectory(prefix="must-fail-") as scratch:
        folder, kept = pathlib.Path(scratch) / "crate", pathlib.Path(scratch) / "kept"
        goals = try_together(libraries, [it for it in edits if not it.fault], folder, kept)
        tried = [("", goals[edit]) if edit in goals else try_alone(libraries, edit, folder, kept) for edit in edits]
        copy_of(crate, folder)
        functions = sorted({edit.function for edit in edits if not edit.fault})
        output = libraries.check(crate, functions, folder, kept) if functions else ""
        unproved = [it for it in functions if not verdict_on(crate, it, output).startswith("proved")]
    return [(f"{edit.function} is not proved without the edit", "") if edit.function in unproved else it
            for edit, it in zip(edits, tried)]


def main():
    options = argparse.ArgumentParser()
    options.add_argument("names", nargs="*")
    options.add_argument("--edits", type=pathlib.Path, default=TOP)
    options.add_argument("--log", type=pathlib.Path)
    given = options.parse_args()
    files = sorted(path for path in given.edits.glob("crates/*/must-fail/*") if path.suffix != ".md")
    edits = [Edit(path) for path in files]
    known = {name for it in edits for name in (it.crate, f"{it.crate}/{it.name}")}
    if not known.issuperset(given.names):
        sys.exit(f"must_fail.py: no edit {' '.join(it for it in given.names if it not in known)}")
    if given.names:
        edits = [it for it in edits if it.crate in given.names or f"{it.crate}/{it.name}" in given.names]
    libraries = Libraries(given.log)
    failed, printing = 0, threading.Lock()

    def run(crate):
        mine = [it for it in edits if it.crate == crate]
        try:
            answers = try_edits(libraries, crate, mine)
            # once more, over nothing, should kept work be at fault
            if any(why.endswith("without the edit") for why, _ in answers):
                answers = try_edits(libraries, crate, mine)
        except Exception as error:  # of this tool or the machine: no edit of the crate counts as refused
            answers = [(f"{type(error).__name__}: {error}", "")] * len(mine)
        with printing:
            for edit, (why, goal) in zip(mine, answers):
                answer = f"FAILED: {why}" if why else f"refused: {goal[:160]}"
                print(f"must-fail {crate}/{edit.name}: {answer}", flush=True)
        return sum(bool(why) for why, _ in answers)

    crates = sorted({it.crate for it in edits}, key=list(libraries.named).index)
    with concurrent.futures.ThreadPoolExecutor(max_workers=os.cpu_count() or 1) as workers:
        failed = sum(workers.map(run, crates))
    failed += not edits
    print(f"{len(edits) - failed} passed, {failed} failed" if edits else "0 passed, 1 failed")
    return 1 if failed else 0


if __name__ == "__main__":
    sys.exit(main())
