#!/usr/bin/env python3
"""Runs the tests that speak of refused memory under the library that refuses it.

usage: refused_tests.py [PASSED FAILED]

After the gate, each test program crates/*/out/*_tests has the tests of its crate. Three kinds, marked by a word in
their names, send messages to the library. Each runs in a process of its own with the library preloaded, and passes if
it ends with status 0, has freed all that it was given, and

  refused_in_turn            which have one request after the other refused, a request was really refused in each part;
  make_no_request            which say so of the calls in them, a message came and no request was refused;
  request_within             which add up the bytes requested, a message came and at least one byte was added up.

Such a test of the sources that is in no program fails: its crate wasn't built, or not with its tests. So does a source
that sends messages and whose tests have none of these words in their names: it would run without the library alone.

Then the program crates/rart_script/out/rart_script runs from outside, by refused_program and program_rows,
crates/rart_routes/out/rart_routes by refused_routes, and crates/rart_random/out/rart_random by refused_random.

PASSED and FAILED are the gate's counts, 0 if not given: the last line adds to them and closes the run.
"""
import os
import pathlib
import re
import shutil
import subprocess
import sys
import tempfile

sys.dont_write_bytecode = True

import program_rows  # noqa: E402
import refused_program  # noqa: E402
import refused_random  # noqa: E402
import refused_routes  # noqa: E402

TOP = pathlib.Path(__file__).resolve().parents[2]

SWEEP = re.compile(r"refused_in_turn")
QUIET = re.compile(r"makes?_no_request")
ADDED = re.compile(r"requests?_within")
KINDS = (SWEEP, QUIET, ADDED)
SENDS = re.compile(r"^use rart_test_tools::refusals::", re.M)
IN_SOURCE = re.compile(r"^\s*#\[test\]\s+fn (\w+)", re.M)


def compiler():
    """A C compiler: the machine's, or the kit's."""
    for name in (os.environ.get("CC"), "cc", "gcc", "clang"):
        if name and shutil.which(name):
            return [name]
    page = subprocess.run(["rt", "doc"], capture_output=True, text=True, check=True).stdout.strip()
    return [str(pathlib.Path(page).parent / "toolchain" / "bin" / "clang"), "-nostdlib", "-fuse-ld=lld"]


def build(folder):
    library = pathlib.Path(folder) / "refuse.so"
    source = TOP / "tools" / "refuse" / "refuse.c"
    subprocess.run([*compiler(), "-O2", "-shared", "-fPIC", "-fno-builtin", "-o", library, source], check=True)
    return library


def tests():
    """The test programs, with the tests of the three kinds."""
    for program in sorted(TOP.glob("crates/*/out/*_tests")):
        if not os.access(program, os.X_OK) or not program.is_file():
            continue
        listed = subprocess.run([program, "--list"], capture_output=True, text=True, timeout=600).stdout
        for test in re.findall(r"^(\S+): test$", listed, re.M):
            if any(kind.search(test) for kind in KINDS):
                yield program, test


def missing(found):
    """Each test of the three kinds that is in a crate's sources and in no program of that crate."""
    for crate in sorted(TOP.glob("crates/*")):
        ran = {test.split("::")[-1] for program, test in found if program.parents[1] == crate}
        for source in sorted(crate.glob("src/**/*.rt")):
            for test in IN_SOURCE.findall(source.read_text()):
                if any(kind.search(test) for kind in KINDS) and test not in ran:
                    yield f"{crate.name} {test}"


def unmarked():
    """Each source of tests that sends messages to the library and has no test of the three kinds."""
    for source in sorted(TOP.glob("crates/*_tests/src/**/*.rt")):
        text = source.read_text()
        names = IN_SOURCE.findall(text)
        if SENDS.search(text) and names and not any(kind.search(name) for name in names for kind in KINDS):
            yield str(source.relative_to(TOP))


def run(program, test, library):
    """Why the test failed, or nothing, and how many requests were refused."""
    with tempfile.TemporaryDirectory() as scratch:
        report = pathlib.Path(scratch) / "report"
        env = {"PATH": "/usr/bin:/bin", "LD_PRELOAD": str(library), "REFUSE_REPORT": str(report)}
        try:
            pipes = {"capture_output": True, "text": True, "errors": "replace"}
            ended = subprocess.run([program, test], env=env, cwd=scratch, timeout=600, **pipes)
        except subprocess.TimeoutExpired:
            return "it ran out of time", 0
        counts = dict(word.split("=") for word in report.read_text().split()) if report.exists() else {}
    refused = int(counts.get("refused", 0))
    if ended.returncode != 0:
        return f"status {ended.returncode}: {(ended.stdout + ended.stderr)[-600:]}", refused
    if int(counts.get("messages", 0)) == 0:
        return "no message came", refused
    if int(counts.get("held", 0)):
        return f"{counts['held']} blocks are not freed", refused
    if SWEEP.search(test) and not refused:
        return "no request was refused", refused
    if int(counts.get("empty", 0)):
        return "a part of the sweep met no refusal", refused
    if QUIET.search(test) and refused:
        return "memory was requested", refused
    if ADDED.search(test) and int(counts.get("added", 0)) == 0:
        return "no byte was added up", refused
    return "", refused


def outcomes(found, library):
    """Each test and each check of a program: its name, why it failed, if it did, and the count of refused requests."""
    for program, test in found:
        yield f"{program.name[:-6]} {test}", *run(program, test, library)
    random = TOP / "crates" / "rart_random" / "out" / "rart_random"
    for name, why, refused in refused_random.checks(random, library):
        yield f"rart_random {name}", why, refused
    routes = TOP / "crates" / "rart_routes" / "out" / "rart_routes"
    for name, why, refused in refused_routes.checks(routes, library):
        yield f"rart_routes {name}", why, refused
    program = TOP / "crates" / "rart_script" / "out" / "rart_script"
    if not os.access(program, os.X_OK):
        yield "rart_script", "the program isn't built", 0
        return
    for name, why, refused in refused_program.checks(program, library):
        yield f"rart_script {name}", why, refused
    for name, why in program_rows.checks(program):
        yield f"rart_script {name}", why, 0


def main():
    passed, failed = (int(sys.argv[1]), int(sys.argv[2])) if len(sys.argv) == 3 else (0, 0)
    found = list(tests())
    with tempfile.TemporaryDirectory() as folder:
        for name, why, refused in outcomes(found, build(folder)):
            print(f"refused: {name}: {'FAILED: ' + why if why else 'ok'}, {refused} requests refused")
            if why:
                failed += 1
            else:
                passed += 1
    for name in missing(found):
        print(f"refused: {name}: FAILED: it is in no test program")
        failed += 1
    for name in unmarked():
        print(f"refused: {name}: FAILED: none of its tests has a word of the library in its name")
        failed += 1
    for kind in KINDS:
        if not any(kind.search(test) for _, test in found):
            print(f"refused: no test named {kind.pattern}")
            failed += 1
    print(f"{passed} passed, {failed} failed")
    return 1 if failed else 0


if __name__ == "__main__":
    sys.exit(main())
