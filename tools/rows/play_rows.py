#!/usr/bin/env python3
"""Plays whole scripts on the two programs, as each compiler builds them.

usage: play_rows.py [PASSED FAILED]

After the gate, crates/NAME/out/NAME is the program NAME as LLVM builds it, and NAME.by-rattle as Rattle's own compiler
does. Each plays every row of the tables in script_rows or routes_rows, with the arguments of the row: the status,
standard output and standard error must be exactly those of the row. Then come runs whose input is slow, fails or is a
terminal's, whose output or errors take so many bytes and then fail, or whose output and errors are one pipe. Linux is
needed: the failures are its own.

PASSED and FAILED are the counts of the step before. The last line adds to them one for each table and each run of a
build; a row that fails is named.
"""
import os
import pathlib
import pty
import resource
import socket
import subprocess
import sys
import tempfile
import termios
from functools import partial

sys.dont_write_bytecode = True

TOP = pathlib.Path(__file__).resolve().parents[2]
sys.path.append(str(TOP / "tools" / "refuse"))

import routes_rows  # noqa: E402
import script_rows  # noqa: E402
from refused_program import in_pieces  # noqa: E402
from refused_tests import build  # noqa: E402

PROGRAMS = (("rart_script", script_rows), ("rart_routes", routes_rows))

# What each compiler adds to the name of what it builds.
BUILDS = (("LLVM", ""), ("Rattle", ".by-rattle"))

# Far more seconds than any run takes, on a busy machine too.
SECONDS = 600


def run(program, script, arguments=(), **how):
    """The status, what was printed and what was said."""
    how = {"stdout": subprocess.PIPE, "stderr": subprocess.PIPE, "env": {}, **how}
    if "stdin" not in how:
        how["input"] = script
    ended = subprocess.run([program, *arguments], timeout=SECONDS, **how)
    return ended.returncode, ended.stdout, ended.stderr


def run_broken(program, script):
    """A run whose reads give the script, and then fail."""
    ours, theirs = socket.socketpair()
    with ours, theirs:
        # A socket closed with bytes that nobody read resets the other one, once that one has read its own.
        theirs.sendall(b"unread")
        ours.sendall(script)
        ours.close()
        return run(program, script, stdin=theirs)


def run_at_terminal(program, script):
    """A run at a terminal, which stays open after one end of input: a program that reads on waits for ever."""
    ours, theirs = pty.openpty()
    flags = termios.tcgetattr(theirs)
    flags[3] &= ~termios.ECHO
    termios.tcsetattr(theirs, termios.TCSANOW, flags)
    os.write(ours, script + b"\x04")
    try:
        return run(program, script, stdin=theirs)
    finally:
        os.close(theirs)
        os.close(ours)


def run_limited(program, script, stream, limit, **how):
    """A run whose `stream` takes `limit` bytes, and then fails."""

    def set_limit():
        resource.setrlimit(resource.RLIMIT_FSIZE, (limit, limit))

    with tempfile.TemporaryFile() as file:
        # The signal SIGXFSZ stays ignored, as it is in Python, so a write past the limit fails.
        how |= {stream: file, "preexec_fn": set_limit, "restore_signals": False}
        status, printed, said = run(program, script, **how)
        file.seek(0)
        taken = file.read()
    return (status, taken, said) if stream == "stdout" else (status, printed, taken)


def run_unbuffered(program, script, stream, limit, library):
    """The same, with the first request for memory refused: it is that for the buffer of standard output."""
    env = {"LD_PRELOAD": str(library), "REFUSE": "1", "REFUSE_REPORT": "/dev/stderr"}
    status, taken, said = run_limited(program, script, stream, limit, env=env)
    said, _, report = said.partition(b"requests=")
    return status, taken, said if b" refused=1 " in report else b"no request was refused"


def run_in_one(program, script, **how):
    """A run whose output and errors are one pipe."""
    return run(program, script, stderr=subprocess.STDOUT, **how)


def row_of(status, printed, said):
    """The three, as a failure shows them."""
    return f"status {status}, {printed!r}, {said!r}"


def why_not(play, program, script, wanted):
    """Why the run of the script by `play` failed, or nothing."""
    try:
        found = play(program, script)
    except subprocess.TimeoutExpired as late:
        return f"it had not ended after {late.timeout:.0f} seconds"
    return "" if found == wanted else f"{row_of(*found)}, and not {row_of(*wanted)}"


def in_order(row):
    """The script of a row, and then its status, output and message, as runs return them. Arguments may follow them."""
    script, printed, said, status, *_ = row
    return script, (status, printed, said)


def runs(name, rows, library):
    """Each run whose streams are not plain: its name, how it is made, its script and what it must give."""
    cannot_read, cannot_write = f"{name}: cannot read\n".encode(), f"{name}: cannot write\n".encode()
    narrow = {"stream": "stdout", "limit": 2}
    shared, (status, printed, said) = in_order(rows.SHARED)
    return (
        ("answers come before the message", run_in_one, shared, (status, printed + said, None)),
        ("short reads change nothing", partial(in_pieces, size=1), *in_order(rows.SLOW)),
        ("a terminal's input ends once", run_at_terminal, b"len\nlen\n", (0, b"0\n0\n", b"")),
        ("a failed read runs nothing", run_broken, b"len\nfoo\n", (1, b"", cannot_read)),
        # The second answer does not fit; the line after it is malformed and never read.
        (
            "a failed write ends the run",
            partial(run_unbuffered, library=library, **narrow),
            b"len\nlen\nfoo\n",
            (1, b"0\n", cannot_write),
        ),
        # Answers that are still buffered before a malformed line.
        (
            "a failed write of the buffer ends the run",
            partial(run_limited, **narrow),
            b"len\nlen\nfoo\n",
            (1, b"0\n", cannot_write),
        ),
        (
            "a message that is not written is a failed write",
            partial(run_limited, stream="stderr", limit=3),
            b"len\nfoo\n",
            (1, b"0\n", b"lin"),
        ),
    )


def going_runs(name, option):
    """The same with an option that lets the program go past malformed lines."""
    cannot_write = f"{name}: cannot write\n".encode()
    script, message = b"len\nfoo\nlen\n", b"line 2: bad command\n"
    going = {"arguments": (option,)}
    return (
        ("past a malformed line, in order", partial(run_in_one, **going), script, (2, b"0\n" + message + b"0\n", None)),
        (
            "past a malformed line, a failed write ends the run",
            partial(run_limited, stream="stdout", limit=2, **going),
            script,
            (1, b"0\n", message + cannot_write),
        ),
        # The third line is not run.
        (
            "past a malformed line, a message that is not written is a failed write",
            partial(run_limited, stream="stderr", limit=3, **going),
            script,
            (1, b"0\n", b"lin"),
        ),
    )


def outcomes(name, rows, program, library):
    """Each table and each run: its name, how many rows it has, and why rows failed."""
    for table, of_table in rows.TABLES.items():
        failed = []
        for at, row in enumerate(of_table):
            script, wanted = in_order(row)
            arguments = row[4:]
            why = why_not(partial(run, arguments=arguments), program, script, wanted)
            if why:
                failed.append(f"row {at}, {script!r}{f' with {arguments}' if arguments else ''}: {why}")
        yield f"{table}, {len(of_table)} rows", failed
    option = getattr(rows, "KEEP_GOING", None)
    for run_name, play, script, wanted in runs(name, rows, library) + (going_runs(name, option) if option else ()):
        why = why_not(play, program, script, wanted)
        yield run_name, [why] if why else []


def main():
    passed, failed = (int(sys.argv[1]), int(sys.argv[2])) if len(sys.argv) == 3 else (0, 0)
    with tempfile.TemporaryDirectory() as folder:
        library = build(folder)
        for name, rows in PROGRAMS:
            for compiler, end in BUILDS:
                program = TOP / "crates" / name / "out" / f"{name}{end}"
                if not os.access(program, os.X_OK):
                    print(f"rows: {name} by {compiler}: FAILED: it isn't built")
                    failed += 1
                    continue
                for what, why in outcomes(name, rows, program, library):
                    print(f"rows: {name} by {compiler}: {what}: {'FAILED' if why else 'ok'}")
                    print(*(f"  {it}" for it in why), sep="\n", end="\n" if why else "")
                    passed += not why
                    failed += bool(why)
    print(f"{passed} passed, {failed} failed")
    return 1 if failed else 0


if __name__ == "__main__":
    sys.exit(main())
