"""The program `rart_routes`, run from outside: each request for memory is refused in turn, and lines are malformed."""
import os

from program_rows import attempt
from refused_program import run, swept

CANNOT_READ = b"rart_routes: cannot read\n"

LINES = b"""add 10.0.0.0/8 core
add 10.1.0.0/16 lab
add 2001:db8::/32 v6
get 10.1.0.0/16
route 10.1.2.3
covering 10.1.2.3
add 10.1.0.0/20 a
del 10.1.0.0/20
del 10.0.0.0/8
len
"""

ROUTES = b"10.0.0.0/8 core\n10.1.0.0/16 lab\n10.1.2.3 printer\n10.1.0.0/20 a\n"

# An input with a malformed line, the answers before that line, and what is said.
BAD_LINES = (
    (b"add 10.0.0.0/8 a\nfoo\nlen\n", b"none\n", b"line 2: bad command\n"),
    (b"len\n\nget 10.0.0/8\n", b"0\n", b"line 3: bad address\n"),
    (b"get ::/129", b"", b"line 1: bad length\n"),
    (b"get 10.0.0.1/8", b"", b"line 1: host bits set\n"),
)


def bad_lines(program):
    """The answers before a malformed line, the message that says what is wrong, and status 2."""
    for script, answers, said in BAD_LINES:
        ended = run(program, script)[:3]
        if ended != (2, answers, said):
            return f"{said}: {ended}"
    return ""


def loaded(program, library):
    """Why loading routes failed, or nothing, and how many requests were refused. A refused route prints `Memory`."""
    routes = ROUTES.count(b"\n")
    refusals = 0
    for at in range(1, 10_000):
        status, printed, said, refused, held = run(program, ROUTES + b"len\n", at, library)
        if held:
            return f"request {at}: {held} blocks are not freed", at
        lost = printed.count(b"Memory\n")
        refusals += lost
        wanted = (0, lost * b"Memory\n" + b"%d\n" % (routes - lost), b"")
        if (status, printed, said) != wanted and (status, printed, said) != (1, b"", CANNOT_READ):
            return f"request {at}: status {status}, {printed}, {said}", at
        if not refused:
            return "" if refusals and not lost else "no route was refused, or one without a refusal", at - 1
    return "refused for ever", 0


def checks(program, library):
    """Each check: its name, why it failed, or nothing, and how many requests were refused."""
    if not os.access(program, os.X_OK):
        yield "the program", "it isn't built", 0
        return
    outcome = attempt(swept, program, LINES, library, CANNOT_READ)
    why, refused = (outcome, 0) if isinstance(outcome, str) else outcome
    yield "ten lines, each request refused", why, refused
    outcome = attempt(loaded, program, library)
    why, refused = (outcome, 0) if isinstance(outcome, str) else outcome
    yield "routes that are loaded, each request refused", why, refused
    yield "bad lines", attempt(bad_lines, program), 0
