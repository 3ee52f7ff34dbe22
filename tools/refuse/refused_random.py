"""The calls that look random, with requests for memory refused: `rart_random` under the library that refuses.

The program itself requests the refusals, one call of so many. A refused call must answer so and change nothing, and the
same call, made again, must answer as the model does.
"""
import os
import pathlib
import re
import subprocess
import tempfile

# Key type, seed, calls, and one of how many calls has a request refused; then the least number of pairs of the largest
# tree, and of edits of a tree that are refused.
CASES = (
    (32, 101, 60_000, 15, 380, 50),
    (8, 102, 60_000, 15, 190, 50),
    (16, 104, 60_000, 15, 85, 50),
    (32, 107, 60_000, 15, 3_300, 50),
    (8, 115, 60_000, 15, 3_600, 50),
    (16, 123, 60_000, 15, 2_700, 50),
)

# What a case that passes says.
RIGHT = re.compile(r": right, largest tree (\d+), (\d+) edits refused\n")

# The least number of refusals that a run must meet.
LEAST = 250


def run(program, library, case):
    """Why the run failed, or nothing, and how many requests were refused."""
    line = "%d %d %d %d\n" % case[:4]
    with tempfile.TemporaryDirectory() as scratch:
        report = pathlib.Path(scratch) / "report"
        env = {"PATH": "/usr/bin:/bin", "LD_PRELOAD": str(library), "REFUSE_REPORT": str(report)}
        try:
            ended = subprocess.run(
                [program], input=line.encode(), env=env, cwd=scratch, capture_output=True, timeout=1800
            )
        except subprocess.TimeoutExpired:
            return "it ran out of time", 0
        counts = dict(word.split("=") for word in report.read_text().split()) if report.exists() else {}
    refused = int(counts.get("refused", 0))
    if ended.returncode != 0 or ended.stdout != b"all cases went well\n":
        return f"status {ended.returncode}: {ended.stdout[-600:]!r}", refused
    if int(counts.get("held", 0)):
        return f"{counts['held']} blocks are not freed", refused
    found = RIGHT.search(ended.stderr.decode(errors="replace"))
    if not found or int(found[1]) < case[4] or int(found[2]) < case[5]:
        return f"too small a tree, or too few refused edits: {ended.stderr[-600:]!r}", refused
    return "" if refused >= LEAST else "too few requests were refused", refused


def checks(program, library):
    """Each case: its name, why it failed, or nothing, and how many requests were refused."""
    if not os.access(program, os.X_OK):
        yield "the program", "it isn't built", 0
        return
    for case in CASES:
        yield "keys %d, seed %d" % case[:2], *run(program, library, case)
