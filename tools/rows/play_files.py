#!/usr/bin/env python3
"""Plays the files of rows in tests/ on the program rart_rows, as each compiler builds it.

usage: play_files.py [PASSED FAILED]

After the gate, crates/rart_rows/out/rart_rows is the program as LLVM builds it, and rart_rows.by-rattle as Rattle's own
compiler does. Each plays every file, and then under the library that refuses requests for memory, where each request of
each call is refused in turn. A file passes if all its rows are read and answered as they say, and, under the library,
if requests were refused and all memory was freed. Then each file is played with one answer changed, which must be
named, and with a line that is no row, which must be refused.

PASSED and FAILED are the counts of the step before. The last line adds to them one for each play of a file.
"""
import os
import pathlib
import re
import subprocess
import sys
import tempfile

sys.dont_write_bytecode = True

TOP = pathlib.Path(__file__).resolve().parents[2]
sys.path.append(str(TOP / "tools" / "refuse"))

from refused_tests import build  # noqa: E402

# What each compiler adds to the name of what it builds.
BUILDS = (("LLVM", ""), ("Rattle", ".by-rattle"))

# Far more seconds than any play takes, on a busy machine too.
SECONDS = 600

COUNTS = re.compile(
    r"^(\d+) rows, (\d+) wrong answers, (\d+) unreadable lines, (\d+) requests refused$", re.M
)

# What it says of rows that name requests, where none can be refused.
UNPLAYED = re.compile(r"^(\d+) rows of refusing parts were not played", re.M)


def text_of(files):
    """What the program reads: each file after a line with its name."""
    return b"".join(b"file " + os.fsencode(name) + b"\n" + text.rstrip(b"\n") + b"\n" for name, text in files)


def play(program, text, library=None):
    """The status and the output of a play, and how many blocks of memory it still held."""
    with tempfile.TemporaryDirectory() as scratch:
        report = pathlib.Path(scratch) / "report"
        env = {"LD_PRELOAD": str(library), "REFUSE_REPORT": str(report)} if library else {}
        ended = subprocess.run([program], input=text, stdout=subprocess.PIPE, env=env, timeout=SECONDS)
        held = re.search(r"held=(\d+)", report.read_text()) if report.exists() else None
    return ended.returncode, ended.stdout.decode(errors="replace"), int(held[1]) if held else 0


def why_not(program, name, text, library=None):
    """Why a file failed, or nothing, and how many rows it has and requests were refused."""
    try:
        status, said, held = play(program, text_of([(name, text)]), library)
    except subprocess.TimeoutExpired as late:
        return f"it had not ended after {late.timeout:.0f} seconds", 0, 0
    found = COUNTS.search(said)
    if not found:
        return f"status {status}, without counts: {said[-300:]!r}", 0, 0
    rows, wrong, unreadable, refused = map(int, found.groups())
    unplayed = UNPLAYED.search(said)
    wanted = sum(b" -> " in line and not line.startswith(b"#") for line in text.splitlines())
    if status or wrong or unreadable or unplayed and library:
        return said, rows, refused
    if rows + int(unplayed[1] if unplayed else 0) != wanted:
        return f"{rows} rows were played of {wanted}", rows, refused
    if library and not refused:
        return "no request was refused", rows, refused
    return (f"{held} blocks are not freed" if held else ""), rows, refused


def changed(text):
    """The file with another answer in a row near its middle, and the number of that row's line."""
    lines = text.split(b"\n")
    rows = [at for at, line in enumerate(lines) if b" -> " in line and not line.startswith(b"#")]
    at = rows[len(rows) // 2]
    lines[at] += b" and more"
    return b"\n".join(lines), at + 1


def is_caught(program, name, text, library):
    """Why a changed answer was not named, or nothing. Some rows are played under the library alone."""
    other, line = changed(text)
    status, said, _ = play(program, text_of([(name, other)]), library)
    return "" if status == 1 and f"{name}:{line}: " in said else f"status {status}: {said[-300:]!r}"


def is_refused(program, name, text):
    """Why a line that is no row was not refused, or nothing."""
    lines = [*text.splitlines(), b"get -> none"]
    status, said, _ = play(program, text_of([(name, b"\n".join(lines))]))
    named = f"{name}:{len(lines)}: cannot be read" in said
    return "" if status == 2 and named else f"status {status}: {said[-300:]!r}"


def outcomes(program, files, library):
    """Each play of a file: what it is, and why it failed, if it did."""
    for name, text in files:
        why, rows, _ = why_not(program, name, text)
        yield f"{name}: {rows} rows", why
        why, _, refused = why_not(program, name, text, library)
        yield f"{name}: {refused} requests refused", why
        yield f"{name}: a changed answer", is_caught(program, name, text, library)
        yield f"{name}: a line that is no row", is_refused(program, name, text)


def main():
    passed, failed = (int(sys.argv[1]), int(sys.argv[2])) if len(sys.argv) == 3 else (0, 0)
    paths = sorted(TOP.glob("tests/**/*.rows"))
    files = [(str(path.relative_to(TOP)), path.read_bytes()) for path in paths]
    if not files:
        print("rows: no file of rows: FAILED")
        failed += 1
    with tempfile.TemporaryDirectory() as folder:
        library = build(folder)
        for compiler, end in BUILDS:
            program = TOP / "crates" / "rart_rows" / "out" / f"rart_rows{end}"
            if not os.access(program, os.X_OK):
                print(f"rows: rart_rows by {compiler}: FAILED: it isn't built")
                failed += 1
                continue
            for what, why in outcomes(program, files, library):
                print(f"rows: {what} by {compiler}: {'FAILED: ' + why if why else 'ok'}")
                passed += not why
                failed += bool(why)
    print(f"{passed} passed, {failed} failed")
    return 1 if failed else 0


if __name__ == "__main__":
    sys.exit(main())
