"""Rows of the program: large and odd inputs, closed and full outputs, and little memory.

Each has a status and a message. The rows need /bin/sh with `ulimit -v`, /dev/full, and a hard limit on the address
space of at least 64 MiB.
"""
import signal
import subprocess

CANNOT_READ = b"rart_script: cannot read\n"
CANNOT_WRITE = b"rart_script: cannot write\n"
BAD_FIRST = b"line 1: bad command\n"

LINES = 1_000_000

# An input of 2 MiB, so that the smaller address spaces cannot hold it.
MANY_KEYS = b"".join(b"insert key%06d %d\n" % (i, i) for i in range(90_000))

# The sizes of the address space, in MiB. The first can't hold the input, and the last can hold it and the tree.
SPACES = (3, 4, 6, 8, 12, 16, 24, 32, 48, 64)

# Far more seconds than any row takes, on a busy machine too.
SECONDS = 300


def run(program, script, space=None, **how):
    """The status, what was printed and what was said. With `space` the address space has so many KiB."""
    how = {"stdout": subprocess.PIPE, "stderr": subprocess.PIPE, **how}
    words = [program]
    if space:
        words = ["/bin/sh", "-c", f'ulimit -v {space} && exec "$0"', program]
    ended = subprocess.run(words, input=script, env={}, timeout=SECONDS, **how)
    return ended.returncode, ended.stdout, ended.stderr


def differs(found, wanted):
    return "" if found == wanted else f"status {found[0]}, {found[1][:60]!r}, {found[2][:60]!r}"


def one_long_line(program):
    """100 MB of one word."""
    return differs(run(program, b"a" * 100_000_000), (2, b"", BAD_FIRST))


def many_lines(program):
    """A million lines, on one key."""
    answers = b"none\n" + b"".join(b"some %d\n" % i for i in range(LINES - 1))
    return differs(run(program, b"".join(b"insert a %d\n" % i for i in range(LINES))), (0, answers, b""))


def odd_bytes(program):
    """Keys of NUL and of bytes above 127."""
    script = b"insert \0 1\ninsert \xff\x80 2\nget \0\nget \xff\x80\nget \xff\nlongest \0\0\n"
    return differs(run(program, script), (0, b"none\nnone\nsome 1\nsome 2\nnone\nsome \0=1\n", b""))


def closed_output(program):
    """Standard output is closed."""
    words = ["/bin/sh", "-c", 'exec "$0" >&-', program]
    ended = subprocess.run(words, input=b"len\n", capture_output=True, env={}, timeout=SECONDS)
    return differs((ended.returncode, ended.stdout, ended.stderr), (1, b"", CANNOT_WRITE))


def full_output(program):
    """A full disk, at an answer longer than the buffer."""
    with open("/dev/full", "wb") as full:
        status, _, said = run(program, MANY_KEYS, stdout=full)
    return differs((status, b"", said), (1, b"", CANNOT_WRITE))


def reader_goes(program):
    """The reader goes away before the first answer."""
    child = subprocess.Popen([program], stdin=subprocess.PIPE, stdout=subprocess.PIPE, stderr=subprocess.PIPE, env={})
    child.stdout.close()
    try:
        child.stdin.write(MANY_KEYS)
        child.stdin.close()
    except BrokenPipeError:
        pass
    try:
        # The process is ended by the signal, or sees that it cannot write.
        status = child.wait(timeout=SECONDS)
    finally:
        child.kill()
    said = child.stderr.read()
    child.stderr.close()
    if status == -signal.SIGPIPE:
        return ""
    return differs((status, b"", said), (1, b"", CANNOT_WRITE))


def little_memory(program, space, mixed):
    """An address space of so many MiB: it isn't begun, cannot read, or answers each line with `none` or `Memory`.

    If it gives both answers, the space is added to `mixed`; at the last, one must have been.
    """
    status, printed, said = run(program, MANY_KEYS, space * 1024)
    answers = printed.splitlines()
    if status == 0 and not said and len(answers) == 90_000 and set(answers) <= {b"none", b"Memory"}:
        refused = answers.count(b"Memory")
        if 0 < refused < 90_000:
            mixed.append(space)
        if space < SPACES[-1]:
            return ""
        return f"{refused} answers are Memory" if refused else "" if mixed else "no space gave both answers"
    # At 127 the C library itself isn't loaded.
    is_refused = (status, printed, said) == (1, b"", CANNOT_READ) or (status == 127 and not printed)
    if is_refused and space < SPACES[-1]:
        return ""
    return f"status {status}, {len(answers)} lines, {said[:80]!r}"


def attempt(check, *given):
    """Why the check failed, or nothing; a run that doesn't end fails it."""
    try:
        return check(*given)
    except subprocess.TimeoutExpired as late:
        return f"it had not ended after {late.timeout:.0f} seconds"


def checks(program):
    """Each row: its name, and why it failed, or nothing."""
    for name, check in (
        ("100 MB of one line", one_long_line),
        ("a million lines", many_lines),
        ("odd bytes", odd_bytes),
        ("a closed output", closed_output),
        ("a full output", full_output),
        ("a reader that goes away", reader_goes),
    ):
        yield name, attempt(check, program)
    mixed = []
    for space in SPACES:
        yield f"{space} MiB of addresses", attempt(little_memory, program, space, mixed)
