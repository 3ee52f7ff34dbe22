#!/usr/bin/env python3
"""Runs README's first commands, as they are printed.

usage: readme_commands.py [PASSED FAILED]

They are the lines of the first `sh` block, but for `./test`, which runs this. After the gate, `./run` finds its program
built; that it can prove it is not tried. Each command must end with the status, standard output and standard error of
its row, and README must say so: the answers are what it has first in back quotes after the block, but for the two
routes of the last. Then come other calls of the scripts, `./rows` among them: usage, arguments that they don't take, a
link to one, an output or a folder that can't be written. All run side by side.

PASSED and FAILED are the counts of the step before, 0 if not given. The last line adds the commands to them.
"""
import concurrent.futures
import os
import pathlib
import re
import signal
import subprocess
import sys

sys.dont_write_bytecode = True

TOP = pathlib.Path(__file__).resolve().parents[1]

# The first block, and what follows to the next heading.
BLOCK = re.compile(r"^```sh\n(.*?)^```$(.*?)^#", re.S | re.M)
CODE = re.compile(r"`([^`\n]+)`")

WORDS = "none\nnone\nsome 1\nsome catalog=2\n"
ROUTES = "none\nnone\nsome 10.16.0.0/12=lyon\n10.0.0.0/8=core 10.16.0.0/12=lyon\n"
UNPROVED = "try: runs the program unproved; it takes about a minute\n"

# What follows the last `|` of each of README's commands, and its status, standard output and standard error.
ROWS = [
    ("./try", 0, WORDS, UNPROVED),
    ("./try rart_routes", 0, ROUTES, UNPROVED),
    ("./run", 0, WORDS, ""),
]

NO_FOLDER = "cannot make a folder in /nowhere; TMPDIR names another\n"
PROGRAMS = "[rart_script | rart_routes [--keep-going]]    commands on standard input; GUIDE.md lists them\n"
ONLY_ARGUMENT = "the only argument of rart_routes is --keep-going\n"
GATE = "usage: ./test    the gate: proofs, edits, tests and programs; docs/STATUS.md has its time\n"
BEGINS = "test: begins; docs/STATUS.md says how long it takes\n"

# Without `rt`: a call that should be refused doesn't start the gate if it isn't.
BARE = "PATH=/usr/bin:/bin"

# The same of commands that README does not have.
OTHER_ROWS = [
    ("./try rart", 2, "", "try: no program rart: rart_script or rart_routes\n"),
    ("./run rart", 2, "", "run: no program rart: rart_script or rart_routes\n"),
    ("./try rart_script len", 2, "", "try: one program at most: rart_script or rart_routes\n"),
    ("./run rart_script len", 2, "", "run: one program at most: rart_script or rart_routes\n"),
    ("./try rart_routes len", 2, "", f"try: {ONLY_ARGUMENT}"),
    ("./run rart_routes --keep-going len", 2, "", f"run: {ONLY_ARGUMENT}"),
    ("printf 'foo\\nlen\\n' | ./try rart_routes --keep-going", 2, "0\n", f"{UNPROVED}line 1: bad command\n"),
    ("printf 'foo\\nlen\\n' | ./run rart_routes --keep-going", 2, "0\n", "line 1: bad command\n"),
    (f"{BARE} ./test all", 2, "", GATE),
    (f"{BARE} ./test ''", 2, "", GATE),
    ("./try --help", 0, f"usage: ./try {PROGRAMS}", ""),
    ("./run --help len", 0, f"usage: ./run {PROGRAMS}", ""),
    (f"{BARE} ./test --help all", 0, GATE, ""),
    ("TMPDIR=/nowhere ./try", 1, "", f"try: {NO_FOLDER}"),
    ("TMPDIR=/nowhere ./test", 1, BEGINS, f"test: {NO_FOLDER}"),
    (f"{BARE} ./try", 127, "", "try: rt, the command of the Rattle kit, is not on the PATH\n"),
    (f"{BARE} ./test", 127, "", "test: rt, the command of the Rattle kit, is not on the PATH\n"),
    ("./test >/dev/full", 1, "", "test: cannot write\n"),
    ("./test >&-", 1, "", "test: cannot write\n"),
    ("echo len | ./run >/dev/full", 1, "", "rart_script: cannot write\n"),
    ("echo len | ./run >&-", 1, "", "rart_script: cannot write\n"),
    ("echo len | ./try >/dev/full", 1, "", f"{UNPROVED}try: cannot write\n"),
    ('d=$(mktemp -d); ln -s "$PWD/run" "$d"; echo len | "$d/run"; s=$?; rm -r "$d"; exit $s', 0, "0\n", ""),
    ('d=$(mktemp -d); ln -s "$PWD/try" "$d"; echo len | "$d/try"; s=$?; rm -r "$d"; exit $s', 0, "0\n", UNPROVED),
]

ROWS_USAGE = "usage: ./rows [--print] [FILE ..]\n"

# Rows on standard input, and their play in all forms, the second time with each request refused.
SPLIT = "printf 'keys array 8\\ninsert a 1 -> none\\ninsert ab 2 -> none\\n'"
PLAYED = "2 rows, 0 wrong answers, 0 unreadable lines, "

OTHER_ROWS += [
    ("./rows --help", 0, ROWS_USAGE, ""),
    ("./rows -x", 2, "", f"rows: {ROWS_USAGE}"),
    ("./rows nofile", 2, "", "rows: nofile: No such file or directory\n"),
    ("./rows tests/edits/ends.rows >/dev/full", 1, "", "rows: cannot write\n"),
    ("./rows >&-", 1, "", "rows: cannot write\n"),
    (f"{SPLIT} | ./rows /dev/stdin", 0, f"{PLAYED}0 requests refused\n{PLAYED}9 requests refused\n", ""),
]

# Far more seconds than a command takes, on a busy machine too, and less than it takes to prove a program.
SECONDS = 600


def first_run():
    """README's first commands, without their comments, and what it has in back quotes after them."""
    block, after = BLOCK.search((TOP / "README.md").read_text()).groups()
    commands = [line.partition("  #")[0].strip() for line in block.splitlines()]
    return [command for command in commands if command != "./test"], CODE.findall(after)


def run(command):
    """The status, standard output and standard error; nothing if it runs out of time, and then it is ended."""
    pipes = {"stdout": subprocess.PIPE, "stderr": subprocess.PIPE, "text": True}
    with subprocess.Popen(["/bin/sh", "-c", command], cwd=TOP, start_new_session=True, **pipes) as shell:
        try:
            printed, said = shell.communicate(timeout=SECONDS)
        except subprocess.TimeoutExpired:
            os.killpg(shell.pid, signal.SIGKILL)
            return None
    return shell.returncode, printed, said


def fault_of(command, row):
    """Why a command fails its row, or nothing."""
    name, *wanted = row
    if command != name and command.rpartition("|")[2].strip() != name:
        return f"README has {command!r}"
    found = run(command)
    return "" if found == tuple(wanted) else f"status, output and errors are {found}"


def main():
    passed, failed = (int(sys.argv[1]), int(sys.argv[2])) if len(sys.argv) == 3 else (0, 0)
    commands, said = first_run()
    answers = [*WORDS.splitlines(), *ROUTES.splitlines()[:3]]
    if len(commands) != len(ROWS) or said[: len(answers)] != answers:
        print(f"README's commands: FAILED: there are {len(commands)}, and it says that they print {said}")
        failed += 1
    rows = [*ROWS, *OTHER_ROWS]
    with concurrent.futures.ThreadPoolExecutor() as workers:
        faults = list(workers.map(fault_of, [*commands, *(row[0] for row in OTHER_ROWS)], rows))
    for row, fault in zip(rows, faults):
        print(f"README's commands: {row[0]}: {'FAILED: ' + fault if fault else 'ok'}")
        passed, failed = passed + (not fault), failed + bool(fault)
    print(f"{passed} passed, {failed} failed")
    return 1 if failed else 0


if __name__ == "__main__":
    sys.exit(main())
