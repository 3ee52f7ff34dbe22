"""The program, run from outside.

Each request for memory is refused in turn, reads are short or fail, writes fail.

In a run with one request refused the program ends with status 0, and each line is `Memory` or the answer of a run
without the refused command; or it ends with status 1, says that it cannot read, and has printed nothing. In each it
frees all that it was given.

At a malformed line the program ends with status 2, and names the line.
"""
import fcntl
import os
import pathlib
import subprocess
import tempfile
import termios
import time

from program_rows import CANNOT_READ, CANNOT_WRITE, SECONDS, attempt

TEN_LINES = b"""insert cat 1
insert catalog 2
insert dog 3
prefix ca
longest catalogue
range cat dog
remove cat
stats
get -
len
"""

TEN_ANSWERS = b"""none
none
none
cat=1 catalog=2
some catalog=2
cat=1 catalog=2
some 1
leaves 2 values 2 inner 1 children 2 width 4 height 2 w4:1/2
none
2
"""

# An input with a malformed line, the answers before that line, and its number.
BAD_LINES = (
    (b"insert a 1\nfoo\nlen\n", b"none\n", 2),
    (b"insert - 5\n\nget\n", b"none\n", 3),
    (b"INSERT a 1", b"", 1),
)


def all_widths():
    """A root that grows from a leaf to 256 places for its children, and shrinks to a leaf again."""
    keys = [bytes([byte]) for byte in range(0x80, 0x80 + 50)]
    lines = []
    for i, key in enumerate(keys):
        lines.append(b"insert %s %d" % (key, i))
        if i in (3, 4, 15, 16, 47, 48):
            lines.append(b"stats")
    lines += [b"iter", b"range \x90 \x98", b"prefix -"]
    for i, key in enumerate(keys):
        lines.append(b"remove %s" % key)
        if i in (0, 1, 2, 33, 34, 45, 46):
            lines.append(b"stats")
    return b"\n".join(lines + [b"len", b""])


def run(program, script, refuse=0, library=None, **how):
    """The status, what was printed and said, whether a request was refused, and how many blocks weren't freed."""
    with tempfile.TemporaryDirectory() as scratch:
        report = pathlib.Path(scratch) / "report"
        env = {"PATH": "/usr/bin:/bin", "REFUSE": str(refuse), "REFUSE_REPORT": str(report)}
        if library:
            env["LD_PRELOAD"] = str(library)
        how = {"stdout": subprocess.PIPE, "stderr": subprocess.PIPE, **how}
        if "stdin" not in how:
            how["input"] = script
        ended = subprocess.run([program], env=env, cwd=scratch, timeout=SECONDS, **how)
        counts = dict(word.split("=") for word in report.read_text().split()) if report.exists() else {}
    refused, held = int(counts.get("refused", 0)), int(counts.get("held", 0))
    return ended.returncode, ended.stdout, ended.stderr, refused > 0, held


def swept(program, script, library, cannot_read=CANNOT_READ):
    """Why the sweep failed, or nothing, and how many requests were refused. Each line of the script prints one.

    A run in which one request is refused can't read its input, or has one answer `Memory` at most; some run has one.
    """
    lines = script.splitlines(keepends=True)
    status, whole, said, *_ = run(program, script)
    if status != 0 or said or len(whole.splitlines()) != len(lines):
        return "it goes wrong with ample memory", 0
    refusals = 0
    for at in range(1, 10_000):
        status, printed, said, refused, held = run(program, script, at, library)
        if held:
            return f"request {at}: {held} blocks are not freed", at
        if not refused:
            well = at > 1 and refusals and (status, printed, said) == (0, whole, b"")
            return "" if well else "no answer was Memory, or it then went wrong", at - 1
        if status == 1 and not printed and said == cannot_read:
            continue
        answers = printed.splitlines()
        if status != 0 or said or len(answers) != len(lines):
            return f"request {at}: status {status}, {len(answers)} lines", at
        kept = [i for i, answer in enumerate(answers) if answer != b"Memory"]
        without = len(lines) - len(kept)
        refusals += without
        if without > 1:
            return f"request {at}: {without} answers are Memory", at
        _, wanted, *_ = run(program, b"".join(lines[i] for i in kept))
        if [answers[i] for i in kept] != wanted.splitlines():
            return f"request {at}: the other answers differ", at
    return "refused for ever", 0


def ten_lines(program):
    """Ten lines, one of each kind."""
    return "" if run(program, TEN_LINES)[:3] == (0, TEN_ANSWERS, b"") else "other answers"


def is_drained(pipe, child, deadline):
    """Whether nothing is left to be read in the pipe, before the child ends and before the deadline."""
    left = bytearray(4)
    while child.poll() is None and time.monotonic() < deadline:
        fcntl.ioctl(pipe, termios.FIONREAD, left)
        if not any(left):
            return True
        time.sleep(0.001)
    return False


def in_pieces(program, script, size):
    """The status, what was printed and what was said, on the script in pieces, each written after the last was read."""
    read, write = os.pipe()
    child = subprocess.Popen([program], stdin=read, stdout=subprocess.PIPE, stderr=subprocess.PIPE, env={})
    deadline = time.monotonic() + SECONDS
    pieces = [script[at:at + size] for at in range(0, len(script), size)]
    was_read = all(os.write(write, piece) and is_drained(read, child, deadline) for piece in pieces)
    os.close(read)
    os.close(write)
    try:
        printed, said = child.communicate(timeout=SECONDS)
    finally:
        child.kill()
    return (child.returncode, printed, said) if was_read else (None, b"", b"it stops reading")


def short_reads(program):
    """The script in pieces of three bytes."""
    found = in_pieces(program, TEN_LINES, 3)
    return "" if found == (0, TEN_ANSWERS, b"") else f"short reads change the answers: {found}"


def failed_read(program):
    """A folder can't be read."""
    folder = os.open("/", os.O_RDONLY)
    status, printed, said, *_ = run(program, b"", stdin=folder)
    os.close(folder)
    return "" if (status, printed, said) == (1, b"", CANNOT_READ) else f"status {status}, {said!r}"


def failed_write(program):
    """A full disk, and then a pipe that nobody reads."""
    with open("/dev/full", "wb") as full:
        status, _, said, *_ = run(program, TEN_LINES, stdout=full)
    if (status, said) != (1, CANNOT_WRITE):
        return f"/dev/full: status {status}, {said!r}"
    with open("/dev/full", "wb") as full:
        status, *_ = run(program, b"foo\n", stderr=full)
    return "" if status == 1 else f"errors to /dev/full: status {status}"


def bad_lines(program):
    """The answers before a malformed line, the message that names the line, and status 2."""
    for script, answers, line in BAD_LINES:
        ended = run(program, script)[:3]
        if ended != (2, answers, b"line %d: bad command\n" % line):
            return f"line {line}: {ended}"
    return ""


def checks(program, library):
    """Each check: its name, why it failed, or nothing, and how many requests were refused."""
    for name, script in (("ten lines", TEN_LINES), ("all widths", all_widths())):
        outcome = attempt(swept, program, script, library)
        why, refused = (outcome, 0) if isinstance(outcome, str) else outcome
        yield f"{name}, each request refused", why, refused
    for name, check in (
        ("ten lines", ten_lines),
        ("bad lines", bad_lines),
        ("short reads", short_reads),
        ("a failed read", failed_read),
        ("failed writes", failed_write),
    ):
        yield name, attempt(check, program), 0
